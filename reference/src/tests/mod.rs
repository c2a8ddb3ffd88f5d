//! Tests: document 01's examples, both sides of each refusal, the rulings of the interface page, and long random histories.

use crate::*;

mod examples;
mod histories;
mod refusals;
mod rulings;

pub(crate) const HOME: &str = "home\t999\t70\n";
pub(crate) const PARAMETERS: [u8; 3] = [1, 1, 0xAA];
pub(crate) const PHASES: [&str; 10] = ["idle", "country", "name", "chosen", "init", "auth", "owed", "eap", "sure", "live"];

/// Makes an event happen on line 0 of tenant 0.
pub(crate) fn at(table: &mut Table, time: u64, event: Event) -> Answer {
    table.call(&Call::Timed { tenant: 0, line: 0, time, event })
}

/// The same where the call must be accepted.
pub(crate) fn ok(table: &mut Table, time: u64, event: Event) -> Answer {
    let answer = at(table, time, event.clone());
    assert_eq!(answer.refusal, 0, "{event:?}");
    answer
}

/// The refusal number of an event, with the promise that a refused call changes nothing and says nothing else.
pub(crate) fn refusal(table: &Table, time: u64, event: Event) -> u64 {
    let mut after = table.clone();
    let answer = at(&mut after, time, event);
    if answer.refusal != 0 {
        assert_eq!(after, *table);
        assert_eq!(answer.numbers, [0; 12]);
        assert!(answer.part.is_empty() && answer.buffer.iter().all(|octet| *octet == 0));
    }
    answer.refusal
}

pub(crate) fn start(place: u64, mcc: u64, text: &str) -> Event {
    Event::Start { place, mcc, registered: 0, registered_mcc: 0, registered_mnc: 0, version: 4, text: text.into(), room: 64 }
}

pub(crate) fn start_registered(mcc: u64, registered: (u64, u64), text: &str) -> Event {
    let (registered_mcc, registered_mnc) = registered;
    Event::Start { place: 2, mcc, registered: 1, registered_mcc, registered_mnc, version: 4, text: text.into(), room: 64 }
}

pub(crate) fn country(networks: &[(u16, u16)], text: &str) -> Event {
    let networks = networks.iter().flat_map(|(mcc, mnc)| [mcc.to_be_bytes(), mnc.to_be_bytes()].concat()).collect();
    Event::Country { replied: 1, networks, text: text.into(), room: 64 }
}

pub(crate) fn no_country(text: &str) -> Event {
    Event::Country { replied: 0, networks: vec![], text: text.into(), room: 64 }
}

pub(crate) fn v4(octets: [u8; 4]) -> Vec<u8> {
    [&[4], &octets[..], &[0; 12]].concat()
}

pub(crate) fn v6(octets: [u8; 16]) -> Vec<u8> {
    [&[6], &octets[..]].concat()
}

pub(crate) fn addresses(entries: &[Vec<u8>]) -> Event {
    Event::Address { addresses: entries.concat() }
}

pub(crate) fn start_packet(identifier: u8) -> Vec<u8> {
    vec![1, identifier, 0, 14, 254, 0, 0x28, 0xAF, 0, 0, 0, 3, 1, 0]
}

pub(crate) fn nas_packet(identifier: u8, nas: &[u8]) -> Vec<u8> {
    let length = (16 + nas.len()) as u16;
    let nas_length = nas.len() as u16;
    [&[1, identifier][..], &length.to_be_bytes(), &[254, 0, 0x28, 0xAF, 0, 0, 0, 3, 2, 0], &nas_length.to_be_bytes(), nas].concat()
}

pub(crate) fn eap(packet: Vec<u8>) -> Event {
    Event::Eap { packet }
}

pub(crate) fn success(identifier: u8) -> Event {
    eap(vec![3, identifier, 0, 4])
}

pub(crate) fn reply(parameters: &[u8], nas: &[u8]) -> Event {
    Event::Reply { parameters: parameters.into(), nas: nas.into(), room: 3090 }
}

pub(crate) fn congestion(timer: u64) -> Event {
    Event::Congestion { authenticated: 1, timer }
}

/// A table whose only line, 0 of tenant 0, has just been opened.
pub(crate) fn opened() -> Table {
    let mut table = Table::default();
    assert_eq!(table.call(&Call::Open { tenant: 0, line: 0 }).refusal, 0);
    table
}

/// Takes an idle line at home to a phase, with this address chosen; "owed" is eap with the first reply owed, "eap" with none.
pub(crate) fn go(table: &mut Table, time: u64, phase: &str, address: [u8; 4]) {
    if phase == "country" {
        ok(table, time, start(2, 1, HOME));
        return;
    }
    let steps = [
        ("name", start(1, 0, HOME)),
        ("chosen", addresses(&[v4(address)])),
        ("init", Event::Begin),
        ("auth", Event::Init),
        ("owed", eap(start_packet(7))),
        ("eap", reply(&PARAMETERS, &[0x7E])),
        ("sure", success(7)),
        ("live", Event::Final { good: 1 }),
    ];
    let count = steps.iter().position(|(name, _)| *name == phase).map_or(0, |place| place + 1);
    for (_, event) in steps.into_iter().take(count) {
        ok(table, time, event);
    }
}

/// A table whose only line is in this phase, with 192.0.2.7 chosen from chosen on.
pub(crate) fn in_phase(phase: &str) -> Table {
    let mut table = opened();
    go(&mut table, 0, phase, [192, 0, 2, 7]);
    table
}

pub(crate) fn line(table: &Table) -> Line {
    table.lines().next().map(|(_, line)| line.clone()).unwrap()
}

pub(crate) fn listed(table: &mut Table, tenant: u64) -> String {
    let answer = table.call(&Call::List { tenant, room: 1024 });
    assert_eq!(answer.refusal, 0);
    assert_eq!(answer.buffer.len(), 1024);
    let (written, rest) = answer.buffer.split_at(answer.numbers[11] as usize);
    assert!(rest.iter().all(|octet| *octet == 0));
    String::from_utf8(written.to_vec()).unwrap()
}

/// The part as text, where the answer says that it is in the given slice.
pub(crate) fn name(answer: &Answer, part_is_in: u64) -> String {
    assert_eq!((answer.refusal, answer.numbers[3]), (0, part_is_in));
    assert_eq!(answer.numbers[5], answer.part.len() as u64);
    String::from_utf8(answer.part.clone()).unwrap()
}

/// The MNC and MCC of the operator name that an answer asks for.
pub(crate) fn asked(answer: &Answer) -> String {
    assert_eq!(answer.numbers[0], 3, "{answer:?}");
    let name = name(answer, 2);
    name.strip_prefix("n3iwf.5gc.").and_then(|name| name.strip_suffix(".pub.3gppnetwork.org")).unwrap().to_string()
}

pub(crate) fn stop(answer: &Answer) -> (u64, u64) {
    assert_eq!((answer.refusal, answer.numbers[0]), (0, 1), "{answer:?}");
    (answer.numbers[1], answer.numbers[2])
}
