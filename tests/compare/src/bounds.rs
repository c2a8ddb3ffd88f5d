//! Lengths and numbers, every one around its bounds: tables, names, timers, identifiers, texts, lists, packets, replies, answer buffers.

use crate::history::{packet, History, Run, Told};
use crate::layout::{Address, Facts, Line, Pair, Phase, Turn};
use crate::lent::{self, Node};
use crate::phases::{children, country, holds, reached, reply, start, text, timed, FOUR, HUGE, PAIR, SIX, TIME};
use crate::random::Random;
use reference::{Answer, Call, Event, PacketCall};

/// Makes them all; how many kinds there are.
pub fn all(run: &mut Run) -> Result<u64, String> {
    let parts = [tables, names, timers, identifiers, texts, lists, packets, replies, rooms, parameter_walks];
    parts.iter().try_for_each(|part| part(run))?;
    Ok(parts.len() as u64)
}

/// Every pair opened until the table is full, then closed and opened again in other orders, and the longest listing.
fn tables(run: &mut Run) -> Told {
    let mut history = History::new(run.seed);
    let pairs: Vec<Pair> = (0..72).map(|number| (number / 4, number % 4)).collect();
    for (tenant, line) in pairs.iter().rev().chain(&pairs).copied() {
        history.call(Call::Open { tenant, line }, run)?;
        history.call(Call::List { tenant, room: 1024 }, run)?;
    }
    for (tenant, line) in pairs.iter().copied().filter(|(tenant, line)| (tenant + line) % 3 == 0) {
        history.call(Call::Close { tenant, line }, run)?;
        history.call(Call::Open { tenant: line, line: tenant % 4 }, run)?;
    }
    let long = |number: u64| Line {
        time: TIME,
        phase: Phase::Live(Address { version: 6, number: SIX.number + u128::from(number) }),
        holds: holds(7),
        children: children(8),
    };
    let lines: Vec<(Pair, Line)> = (0..4).map(|number| ((15, number), long(number))).collect();
    let full = reached(&lines, run)?;
    (1000..1100).try_for_each(|room| full.tried(Call::List { tenant: 15, room }, run).map(drop))
}

fn idle(run: &mut Run) -> Result<History, String> {
    in_phase(Phase::Idle, run)
}

fn in_phase(phase: Phase, run: &mut Run) -> Result<History, String> {
    reached(&[(PAIR, Line { time: TIME, phase, holds: vec![], children: vec![] })], run)
}

fn tried(history: &History, event: Event, run: &mut Run) -> Result<Answer, String> {
    history.tried(timed(PAIR, TIME, event), run)
}

/// Every MCC and MNC in a built name.
fn names(run: &mut Run) -> Told {
    let history = idle(run)?;
    for code in 0..1000 {
        tried(&history, start(1, 0, 4, lent::home_text((code, 999 - code), &Node::None)), run)?;
        tried(&history, start(2, code, 6, lent::home_text(((code + 1) % 1000, 0), &Node::None)), run)?;
    }
    Ok(())
}

/// Every timer octet: what it says, the hold that it sets, and the line at the moments around its end.
fn timers(run: &mut Run) -> Told {
    for octet in (0..300).chain(HUGE) {
        packet(PacketCall::Timer { octet }, run)?;
    }
    for time in [TIME, u32::MAX.into()] {
        let history = reached(&[(PAIR, Line { time, phase: Phase::Auth(SIX), holds: vec![], children: vec![] })], run)?;
        (0..258).chain(HUGE).try_for_each(|timer| around_the_end(history.clone(), time, timer, run))?;
    }
    Ok(())
}

fn around_the_end(mut history: History, time: u64, timer: u64, run: &mut Run) -> Told {
    history.call(timed(PAIR, time, Event::Congestion { authenticated: 1, timer }), run)?;
    let end = history.both.line(PAIR).and_then(|line| line.holds.first().and_then(|hold| hold.end)).unwrap_or(time + 2);
    for time in [end - 1, end, end + 1] {
        history.tried(timed(PAIR, time, start(1, 0, 6, lent::home_text((1, 1), &Node::Address(SIX)))), run)?;
    }
    Ok(())
}

/// Every identifier from Start to Success, and Success with each other one.
fn identifiers(run: &mut Run) -> Told {
    let history = in_phase(Phase::Auth(FOUR), run)?;
    for identifier in 0..=255 {
        let mut history = history.clone();
        history.call(timed(PAIR, TIME, Event::Eap { packet: lent::start_packet(identifier) }), run)?;
        tried(&history, Event::Eap { packet: lent::success(identifier) }, run)?;
        history.call(timed(PAIR, TIME, reply(b"\x05\x01\x00", b"nas")), run)?;
        for other in [identifier, !identifier, identifier.wrapping_add(1), identifier.wrapping_sub(1), identifier ^ 128] {
            tried(&history, Event::Eap { packet: lent::success(other) }, run)?;
            tried(&history, Event::Eap { packet: lent::nas_request(other, b"nas") }, run)?;
        }
    }
    Ok(())
}

/// Texts of every length and with every count of records; none over 741 octets is well formed.
fn texts(run: &mut Run) -> Told {
    let (history, waiting) = (idle(run)?, in_phase(Phase::Country(Facts { visited: Some(310), registered: None, version: 4 }), run)?);
    let mut texts: Vec<Vec<u8>> = (0..1100).map(|length| [&b"home\t262\t01\n"[..], &vec![b'g'; length]].concat()).collect();
    texts.extend((0..260).map(|length| lent::home_text((262, 1), &Node::Name("g".repeat(length)))));
    let long = lent::home_text((262, 1), &Node::Name("g".repeat(253)));
    for (preferred, barred) in (0..18).flat_map(|one| [(one, 0), (0, one), (one, 16), (16, one)]) {
        let preferred: Vec<_> = (0..preferred).map(|mnc| ((310, mnc), 255 - mnc)).collect();
        let barred: Vec<_> = (0..barred).map(|mnc| (310, mnc)).collect();
        texts.push([long.clone(), lent::network_lines(&preferred, &barred, &mut Random::of(run.seed, 2))].concat());
    }
    texts.extend((0..long.len()).map(|length| long[..length].to_vec()));
    texts.extend([2000, 5000, 70000].map(|length| vec![b'\n'; length]));
    for text in texts {
        tried(&history, start(1, 0, 4, text.clone()), run)?;
        tried(&waiting, Event::Country { replied: 1, networks: vec![], text, room: 64 }, run)?;
    }
    Ok(())
}

/// Lists of every length, and every octet of an entry at its bounds.
fn lists(run: &mut Run) -> Told {
    let facts = Facts { visited: Some(310), registered: None, version: 4 };
    let (waiting, asking) = (in_phase(Phase::Country(facts), run)?, in_phase(Phase::Name(facts), run)?);
    for length in (0..=72).chain([1000, 5000]) {
        let networks: Vec<u8> = lent::networks(&[(310, 3), (310, 999)]).into_iter().cycle().take(length).collect();
        (0..3).try_for_each(|replied| tried(&waiting, country(replied, networks.clone()), run).map(drop))?;
    }
    for length in (0..=310).chain([1000, 5000]) {
        let addresses: Vec<u8> = lent::addresses(&[SIX, FOUR]).into_iter().cycle().take(length).collect();
        tried(&asking, Event::Address { addresses }, run)?;
    }
    for (place, octet) in (0..17).flat_map(|place| (0..=255).map(move |octet| (place, octet))) {
        for list in [[SIX, FOUR], [FOUR, SIX]] {
            let mut addresses = lent::addresses(&list);
            addresses[place] = octet;
            tried(&asking, Event::Address { addresses }, run)?;
        }
    }
    for number in (0..70000).step_by(64).chain(990..1010).chain([65535]).map(|number| number as u16) {
        let octets = number.to_be_bytes();
        tried(&waiting, country(1, [octets, [0, 3]].concat()), run)?;
        tried(&waiting, country(1, [[1, 54], octets].concat()), run)?;
    }
    Ok(())
}

/// Packets of every length, each octet of a packet with every value, and NAS and parameters at their bounds.
fn packets(run: &mut Run) -> Told {
    let waiting = in_phase(Phase::Eap(FOUR, Turn::NoneOwed, 7), run)?;
    let auth = in_phase(Phase::Auth(SIX), run)?;
    let mut packets: Vec<Vec<u8>> = Vec::new();
    let whole = [lent::start_packet(7), lent::nas_request(7, b"nas"), lent::success(7), lent::nas_response(7, b"\x01\x01\x09", b"nas")];
    for packet in &whole {
        packets.extend((0..=packet.len()).map(|length| packet[..length].to_vec()));
        packets.extend((0..=packet.len()).map(|length| lent::with_true_length(packet[..length].to_vec())));
        for (place, octet) in (0..packet.len()).flat_map(|place| (0..=255).map(move |octet| (place, octet))) {
            let mut changed = packet.clone();
            changed[place] = octet;
            packets.push(changed);
        }
    }
    for length in (0..20).chain(1020..1030).chain(2040..2055).chain([4000]) {
        packets.push(lent::nas_request(7, &vec![0x7e; length]));
        packets.push(lent::nas_response(7, &[], &vec![0x7e; length]));
        packets.push(lent::nas_response(7, &vec![0; length], &[0x7e]));
    }
    for length in (65530..65545).chain([2 * 65536 + 14, 2 * 65536 + 4]) {
        for packet in &whole {
            let mut packet = packet.clone();
            packet.resize(length, 0);
            packets.push(lent::with_true_length(packet));
        }
    }
    for octets in packets {
        packet(PacketCall::ReadRequest { packet: octets.clone() }, run)?;
        packet(PacketCall::ReadResponse { packet: octets.clone() }, run)?;
        tried(&waiting, Event::Eap { packet: octets.clone() }, run)?;
        tried(&auth, Event::Eap { packet: octets }, run)?;
    }
    Ok(())
}

/// Parameters and NAS of every length to write, in a first and in a later reply and without a table.
fn replies(run: &mut Run) -> Told {
    let first = in_phase(Phase::Eap(FOUR, Turn::FirstOwed, 255), run)?;
    let later = in_phase(Phase::Eap(SIX, Turn::Owed, 0), run)?;
    let random = &mut Random::of(run.seed, 3);
    let nas_lengths = (0..2060).chain([65535, 65536, 65537, 70000]).map(|length| (2, length));
    let block_lengths = (0..1040).chain([65536, 65538]).map(|length| (length, 1));
    for (block, nas) in nas_lengths.chain(block_lengths).chain([(1024, 2048), (1025, 2048), (1024, 2049), (0, 2048)]) {
        let parameters = if block == 1 { vec![1] } else { lent::parameters(block, random) };
        let nas = random.octets(nas);
        tried(&first, reply(&parameters, &nas), run)?;
        tried(&later, reply(&parameters, &nas), run)?;
        let identifier = (block % 260) as u64;
        packet(PacketCall::WriteResponse { identifier, parameters, nas, room: 3090 }, run)?;
    }
    for identifier in (0..260).chain(HUGE) {
        packet(PacketCall::WriteResponse { identifier, parameters: vec![], nas: vec![0x7e], room: 3090 }, run)?;
    }
    Ok(())
}

/// Answer buffers of every length around their least.
fn rooms(run: &mut Run) -> Told {
    let waiting = in_phase(Phase::Country(Facts { visited: Some(310), registered: None, version: 4 }), run)?;
    let (history, owing) = (idle(run)?, in_phase(Phase::Eap(FOUR, Turn::FirstOwed, 9), run)?);
    for room in (0..140).chain(3080..3100).chain([10_000]) {
        let start =
            Event::Start { place: 2, mcc: 310, registered: 0, registered_mcc: 0, registered_mnc: 0, version: 4, text: text(), room };
        tried(&history, start, run)?;
        tried(&waiting, Event::Country { replied: 1, networks: vec![], text: text(), room }, run)?;
        tried(&owing, Event::Reply { parameters: vec![1, 0], nas: vec![0x7e], room }, run)?;
        packet(PacketCall::WriteResponse { identifier: 1, parameters: vec![], nas: vec![0x7e], room }, run)?;
        history.tried(Call::List { tenant: 2, room }, run)?;
    }
    (1000..1050).try_for_each(|room| history.tried(Call::List { tenant: 2, room }, run).map(drop))
}

/// Blocks of parameters read at every place, whole ones and cut ones.
fn parameter_walks(run: &mut Run) -> Told {
    let random = &mut Random::of(run.seed, 4);
    for length in [0, 2, 3, 10, 300, 1024, 1025, 1026, 2000] {
        let block = lent::parameters(length, random);
        for at in (0..length as u64 + 3).step_by(1 + length / 300).chain(HUGE) {
            packet(PacketCall::Parameter { parameters: block.clone(), at }, run)?;
            packet(PacketCall::Parameter { parameters: block[..length - length / 3].to_vec(), at }, run)?;
        }
    }
    Ok(())
}
