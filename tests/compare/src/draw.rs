//! Random things that a daemon lends: PLMNs, addresses and texts that go together, packets, replies and children.

use crate::layout::{Address, Child};
use crate::lent::{self, Node, Plmn};
use crate::random::Random;
use reference::Event;

/// Some PLMNs with few MCCs, so that homes, visited countries and lists share them.
pub fn plmns(random: &mut Random) -> Vec<Plmn> {
    let mccs = [random.pick(&[262, 1, 0]), random.pick(&[310, 999]), random.below(1000)];
    (0..8).map(|_| (random.pick(&mccs), random.pick(&[0, 1, 2, 10, 70, 99, 100, 999]))).collect()
}

/// Addresses of both versions, some of which have octets in common.
pub fn addresses(random: &mut Random) -> Vec<Address> {
    let number = random.draw() as u32;
    let four = [number, number ^ 1, number.rotate_left(8), 0, u32::MAX, random.draw() as u32];
    let high = u128::from(random.draw()) << 64;
    let six = [u128::from(number) << 96, u128::from(number), high, high | 1, high | u128::from(random.draw()), 0, u128::MAX];
    let four = four.map(|number| Address { version: 4, number: number.into() });
    let six = six.map(|number| Address { version: 6, number });
    [&four[..], &six[..]].concat()
}

/// A well-formed configuration text.
pub fn text(plmns: &[Plmn], addresses: &[Address], random: &mut Random) -> Vec<u8> {
    let node = match random.below(10) {
        0 | 1 => Node::Name(random.pick(&["gw.example", "a", "A-1.z", &"g".repeat(253)]).to_string()),
        2..=4 => Node::Address(random.pick(addresses)),
        _ => Node::None,
    };
    let mut chosen = |most: usize| match random.chance(10) {
        true => (0..16).map(|mnc| (plmns[0].0, mnc)).collect(),
        false => some(plmns, most, random),
    };
    let (preferred, barred) = (chosen(6), chosen(4));
    let preferred: Vec<(Plmn, u64)> = preferred.into_iter().map(|plmn| (plmn, random.pick(&[0, 1, 5, 5, 5, 200, 255]))).collect();
    let home = random.pick(plmns);
    [lent::home_text(home, &node), lent::network_lines(&preferred, &barred, random)].concat()
}

/// Fewer than so many of the PLMNs, each once.
fn some(plmns: &[Plmn], most: usize, random: &mut Random) -> Vec<Plmn> {
    let mut some = plmns.to_vec();
    some.sort_unstable();
    some.dedup();
    random.shuffle(&mut some);
    some.truncate(random.index(most));
    some
}

/// A packet with other spare bits or with extensions.
pub fn extended(mut packet: Vec<u8>, random: &mut Random) -> Vec<u8> {
    if random.chance(25) {
        packet[13] = random.draw() as u8;
    }
    if random.chance(25) {
        let count = random.pick(&[1, 2, 3, 40, 700]);
        packet.extend(random.octets(count));
    }
    lent::with_true_length(packet)
}

fn nas(random: &mut Random) -> Vec<u8> {
    let count = random.pick(&[1, 1, 2, 3, 20, 255, 256, 1000, 2047, 2048]);
    random.octets(count)
}

/// A reply that has parameters so many times in a hundred.
pub fn reply(with_parameters: u64, random: &mut Random) -> Event {
    let count = random.pick(&[2, 3, 4, 10, 255, 256, 257, 258, 300, 1023, 1024]);
    let parameters = if random.chance(with_parameters) { lent::parameters(count, random) } else { vec![] };
    Event::Reply { parameters, nas: nas(random), room: random.pick(&[3090, 3090, 3091, 4000]) }
}

/// What may follow a reply: a NAS request, or Success with an identifier that is most often the right one.
pub fn next_packet(identifier: u8, random: &mut Random) -> Event {
    let packet = match random.below(10) {
        0..=3 => {
            let next = identifier.wrapping_add(random.pick(&[0, 1, 1, 128]));
            extended(lent::nas_request(next, &nas(random)), random)
        }
        4 => lent::success(identifier.wrapping_add(random.draw() as u8)),
        _ => lent::success(identifier),
    };
    Event::Eap { packet }
}

pub fn any_packet(random: &mut Random) -> Vec<u8> {
    let identifier = random.draw() as u8;
    let packet = match random.below(6) {
        0 => lent::start_packet(identifier),
        1 | 2 => lent::nas_request(identifier, &nas(random)),
        3 => return lent::success(identifier),
        4 => lent::packet(2, identifier, 4, 0, &[]),
        _ => {
            let count = random.pick(&[0, 2, 3, 40, 300, 1024]);
            lent::nas_response(identifier, &lent::parameters(count, random), &nas(random))
        }
    };
    extended(packet, random)
}

/// A child made or deleted on a live line; SPIs are few, so that they come twice.
pub fn child(children: &[Child], random: &mut Random) -> Event {
    let common = 300 + random.below(30);
    let spi = random.pick(&[256, 257, u32::MAX.into(), common, common, common, common]);
    match random.below(12) {
        0 if !children.is_empty() => Event::ChildDeleted { spi: random.pick(children).spi },
        1 => Event::ChildDeleted { spi },
        _ => Event::ChildMade { spi, session: 1 + random.below(15) },
    }
}
