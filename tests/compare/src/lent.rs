//! What a daemon lends: configuration texts, packets, AN-parameters and lists, well formed and damaged.

use crate::layout::{address_octets, Address};
use crate::random::Random;

pub type Plmn = (u64, u64);

/// The gateway that a text names.
#[derive(Clone)]
pub enum Node {
    None,
    Name(String),
    Address(Address),
}

/// The text of a home PLMN with a gateway and nothing else.
pub fn home_text((mcc, mnc): Plmn, node: &Node) -> Vec<u8> {
    let node = match node {
        Node::None => String::new(),
        Node::Name(name) => format!("node\tname\t{name}\n"),
        Node::Address(Address { version: 4, number }) => format!("node\tv4\t{number:08x}\n"),
        Node::Address(Address { number, .. }) => format!("node\tv6\t{number:032x}\n"),
    };
    format!("home\t{mcc:03}\t{mnc:03}\n{node}").into_bytes()
}

/// The lines of preferred and barred PLMNs; an MNC has two digits where it can and the draw says so.
pub fn network_lines(preferred: &[(Plmn, u64)], barred: &[Plmn], random: &mut Random) -> Vec<u8> {
    let mut digits = |mnc: u64| if mnc < 100 && random.chance(50) { format!("{mnc:02}") } else { format!("{mnc:03}") };
    let mut lines = String::new();
    for ((mcc, mnc), priority) in preferred {
        lines += &format!("plmn\t{mcc:03}\t{}\t{priority}\n", digits(*mnc));
    }
    for (mcc, mnc) in barred {
        lines += &format!("bar\t{mcc:03}\t{}\n", digits(*mnc));
    }
    lines.into_bytes()
}

pub fn networks(plmns: &[Plmn]) -> Vec<u8> {
    plmns.iter().flat_map(|(mcc, mnc)| [&mcc.to_be_bytes()[6..], &mnc.to_be_bytes()[6..]].concat()).collect()
}

pub fn addresses(list: &[Address]) -> Vec<u8> {
    list.iter().flat_map(|address| address_octets(*address)).collect()
}

/// A packet with the length that it has; the code, the message and what goes on behind the spare octet are given.
pub fn packet(code: u8, identifier: u8, message: u8, spare: u8, rest: &[u8]) -> Vec<u8> {
    let length = (14 + rest.len()) as u16;
    let mut octets = vec![code, identifier];
    octets.extend(length.to_be_bytes());
    octets.extend([254, 0, 0x28, 0xaf, 0, 0, 0, 3, message, spare]);
    octets.extend(rest);
    octets
}

pub fn start_packet(identifier: u8) -> Vec<u8> {
    packet(1, identifier, 1, 0, &[])
}

/// The octets behind their count in two octets.
pub fn counted(octets: &[u8]) -> Vec<u8> {
    [&(octets.len() as u16).to_be_bytes(), octets].concat()
}

pub fn nas_request(identifier: u8, nas: &[u8]) -> Vec<u8> {
    packet(1, identifier, 2, 0, &counted(nas))
}

pub fn nas_response(identifier: u8, parameters: &[u8], nas: &[u8]) -> Vec<u8> {
    packet(2, identifier, 2, 0, &[counted(parameters), counted(nas)].concat())
}

pub fn success(identifier: u8) -> Vec<u8> {
    vec![3, identifier, 0, 4]
}

/// AN-parameters that fill so many octets; one octet alone can't be filled.
pub fn parameters(count: usize, random: &mut Random) -> Vec<u8> {
    let mut block = Vec::new();
    while block.len() < count {
        let left = count - block.len();
        let mut length = random.index(left.min(257)).saturating_sub(1).min(left.saturating_sub(2));
        if left - 2 - length == 1 {
            length = if length > 0 { length - 1 } else { 1 };
        }
        block.extend([random.draw() as u8, length as u8]);
        block.extend(random.octets(length));
    }
    block
}

/// Octets that are no longer what they were, most often in one place.
pub fn damaged(octets: &[u8], random: &mut Random) -> Vec<u8> {
    let mut changed = octets.to_vec();
    let place = random.index(octets.len() + 1);
    match random.below(9) {
        0 => changed.truncate(place),
        1 if place < octets.len() => drop(changed.remove(place)),
        2 | 3 if place < octets.len() => changed[place] = random.draw() as u8,
        4 if place < octets.len() => changed[place] ^= 1 << random.below(8),
        5 if place < octets.len() => changed[place] = changed[place].wrapping_add(random.pick(&[1, 255])),
        6 => changed.insert(place, random.pick(b"\t\n\r 0aA\0\xff")),
        7 => {
            let count = random.pick(&[1, 4, 17, 40]);
            changed.extend(random.octets(count));
        }
        _ => {
            let again = octets[place..].to_vec();
            changed.extend(again);
        }
    }
    changed
}

/// A packet whose length says how long it is, whatever else was changed in it.
pub fn with_true_length(mut packet: Vec<u8>) -> Vec<u8> {
    let length = (packet.len() as u16).to_be_bytes();
    if packet.len() >= 4 {
        packet[2..4].copy_from_slice(&length);
    }
    packet
}
