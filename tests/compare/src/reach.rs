//! The calls that lead an empty table to given lines.

use crate::layout::{Address, Facts, Line, Pair, Phase, Turn};
use crate::lent::{self, Node};
use reference::{Call, Event};

const UNITS: [u64; 7] = [600, 3600, 36000, 2, 30, 60, 1_152_000];
const DEACTIVATED: u64 = 0xe0;

pub type Timed = (u64, Event);

/// The calls after which the table has these lines and no other, where there are such.
pub fn calls(lines: &[(Pair, Line)]) -> Option<Vec<Call>> {
    let mut calls: Vec<Call> = lines.iter().map(|((tenant, line), _)| Call::Open { tenant: *tenant, line: *line }).collect();
    for ((tenant, line), content) in lines {
        calls.extend(events(content)?.into_iter().map(|(time, event)| Call::Timed { tenant: *tenant, line: *line, time, event }));
    }
    Some(calls)
}

/// The events that lead a line just opened to this one, where there are such: first its holds, then its phase.
pub fn events(line: &Line) -> Option<Vec<Timed>> {
    let mut events = Vec::new();
    let mut last = 0;
    for (place, hold) in line.holds.iter().enumerate() {
        let least = if place == 7 { line.time } else { last };
        let (time, timer) = hold_set(hold.end, least, line.time)?;
        let congestion = Event::Congestion { authenticated: 1, timer };
        events.extend([to_chosen(hold.address), Event::Begin, Event::Init, congestion].map(|event| (time, event)));
        last = time;
    }
    let phase = match line.phase {
        Phase::Idle if last == line.time => vec![],
        _ => to_phase(&line.phase),
    };
    events.extend(phase.into_iter().map(|event| (line.time, event)));
    let made = line.children.iter().map(|child| Event::ChildMade { spi: child.spi, session: child.session });
    events.extend(made.map(|event| (line.time, event)));
    Some(events)
}

/// The earliest time between two, and the timer octet, with which a hold gets this end.
fn hold_set(end: Option<u64>, least: u64, most: u64) -> Option<(u64, u64)> {
    let Some(end) = end else {
        return Some((least, DEACTIVATED));
    };
    let octets = (0..DEACTIVATED).filter(|octet| octet % 32 != 0);
    let times = octets.filter_map(|octet| Some((end.checked_sub(octet % 32 * UNITS[(octet / 32) as usize])?, octet)));
    times.filter(|(time, _)| (least..=most).contains(time)).min()
}

/// The events from idle to a phase.
fn to_phase(phase: &Phase) -> Vec<Event> {
    match *phase {
        Phase::Idle => vec![start(&Facts { visited: None, registered: None, version: 4 }, 0, &Node::None)],
        Phase::Country(facts) => vec![start(&facts, 2, &Node::None)],
        Phase::Name(facts) if facts.visited.is_none() => vec![start(&facts, 1, &Node::None)],
        Phase::Name(facts) => vec![start(&facts, 2, &Node::None), country(&facts)],
        Phase::Chosen(address) => vec![to_chosen(address)],
        Phase::Init(address) => vec![to_chosen(address), Event::Begin],
        Phase::Auth(address) => vec![to_chosen(address), Event::Begin, Event::Init],
        Phase::Eap(address, turn, identifier) => [to_phase(&Phase::Auth(address)), to_turn(turn, identifier as u8)].concat(),
        Phase::Sure(address) => {
            let success = Event::Eap { packet: lent::success(0) };
            [to_phase(&Phase::Eap(address, Turn::NoneOwed, 0)), vec![success]].concat()
        }
        Phase::Live(address) => [to_phase(&Phase::Sure(address)), vec![Event::Final { good: 1 }]].concat(),
    }
}

fn to_turn(turn: Turn, identifier: u8) -> Vec<Event> {
    let begun = Event::Eap { packet: lent::start_packet(identifier) };
    let reply = Event::Reply { parameters: vec![1, 0], nas: vec![0x7e], room: 3090 };
    let asked = Event::Eap { packet: lent::nas_request(identifier, &[0x7e]) };
    match turn {
        Turn::FirstOwed => vec![begun],
        Turn::NoneOwed => vec![begun, reply],
        Turn::Owed => vec![begun, reply, asked],
    }
}

/// A home MCC that is not the visited one.
fn home(facts: &Facts) -> u64 {
    if facts.visited == Some(1) {
        2
    } else {
        1
    }
}

fn start(facts: &Facts, place: u64, node: &Node) -> Event {
    let (registered_mcc, registered_mnc) = facts.registered.unwrap_or((0, 0));
    Event::Start {
        place,
        mcc: facts.visited.unwrap_or(0),
        registered: u64::from(facts.registered.is_some()),
        registered_mcc,
        registered_mnc,
        version: facts.version,
        text: lent::home_text((home(facts), 1), node),
        room: 64,
    }
}

fn to_chosen(address: Address) -> Event {
    start(&Facts { visited: None, registered: None, version: address.version }, 1, &Node::Address(address))
}

fn country(facts: &Facts) -> Event {
    let networks = lent::networks(&[(facts.visited.unwrap_or(0), 1)]);
    Event::Country { replied: 1, networks, text: lent::home_text((home(facts), 1), &Node::None), room: 64 }
}
