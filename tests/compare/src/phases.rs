//! Every event in every phase, and refusals that apply together.

use crate::history::{History, Run, Told};
use crate::layout::{self, Address, Child, Facts, Hold, Line, Pair, Phase, Turn};
use crate::lent::{self, Node};
use crate::reach;
use crate::shape::Shaped;
use reference::{Call, Event};

pub const TIME: u64 = 1_000_000;
pub const PAIR: Pair = (2, 1);
const SOME_HOLDS: usize = 3;
pub const FOUR: Address = Address { version: 4, number: 0xc000_0207 };
pub const SIX: Address = Address { version: 6, number: 0x2001_0db8_0000_0000_0000_0000_0000_0007 };
const LAST: u64 = u32::MAX as u64;
pub const HUGE: [u64; 4] = [LAST, LAST + 1, LAST + 2, u64::MAX];

/// Makes them all; how many lines they were tried on.
pub fn all(run: &mut Run) -> Result<u64, String> {
    let stages = stages();
    for line in &stages {
        let history = reached(&[(PAIR, line.clone())], run)?;
        each_event(&history, line, run)?;
        if line.holds.len() != SOME_HOLDS {
            refusals_together(&history, line, run)?;
        }
    }
    Ok(stages.len() as u64)
}

pub fn holds(count: usize) -> Vec<Hold> {
    let held = |place: usize| match place % 2 {
        0 => Address { version: 4, number: 0x0a00_0000 + place as u128 },
        _ => Address { version: 6, number: (0x2001_0db8 << 96) + place as u128 },
    };
    let end = |place: usize| [None, Some(TIME + 2), Some(TIME + 30)][place % 3];
    (0..count).map(|place| Hold { address: held(place), end: end(place) }).collect()
}

pub fn children(count: usize) -> Vec<Child> {
    let spi = |place: usize| [256, LAST, 0x0100_0000, 0xc0de, 257, 0x1234_5678, 0xff00, 0x8000_0000][place];
    (0..count).map(|place| Child { spi: spi(place), session: 1 + (place as u64 * 2) % 15 }).collect()
}

/// A line in every phase, of either version, without holds and children, with some, and with as many as it may have.
pub fn stages() -> Vec<Line> {
    let mut lines = Vec::new();
    for (address, registered) in [(FOUR, None), (SIX, Some((310, 410)))] {
        let facts = Facts { visited: Some(310), registered, version: address.version };
        let home = Facts { visited: None, ..facts };
        let eap = |turn| Phase::Eap(address, turn, 7);
        let asking = [Phase::Idle, Phase::Country(facts), Phase::Name(facts), Phase::Name(home)];
        let begun = [Phase::Chosen(address), Phase::Init(address), Phase::Auth(address)];
        let later = [eap(Turn::FirstOwed), eap(Turn::Owed), eap(Turn::NoneOwed), Phase::Sure(address), Phase::Live(address)];
        for phase in [&asking[..], &begun, &later].concat() {
            let most = if phase == Phase::Idle { 8 } else { 7 };
            let made = if matches!(phase, Phase::Live(_)) { 8 } else { 0 };
            lines.push(Line { time: TIME, phase, holds: vec![], children: vec![] });
            lines.push(Line { time: TIME, phase, holds: holds(SOME_HOLDS), children: children(made / 2) });
            lines.push(Line { time: TIME, phase, holds: holds(most), children: children(made) });
        }
    }
    lines
}

/// The history that leads to these lines; its table is written as docs/TABLE.md says.
pub fn reached(lines: &[(Pair, Line)], run: &mut Run) -> Result<History, String> {
    let mut history = History::new(run.seed);
    for call in reach::calls(lines).ok_or("there are no calls to these lines")? {
        history.call(call, run)?;
    }
    match history.both.table() == layout::table(lines) {
        true => Ok(history),
        false => Err(format!("deviation: the table is not as docs/TABLE.md has it for {lines:?}")),
    }
}

pub fn timed((tenant, line): Pair, time: u64, event: Event) -> Call {
    Call::Timed { tenant, line, time, event }
}

/// Every event in one phase, each by itself, and the listing behind it.
fn each_event(history: &History, line: &Line, run: &mut Run) -> Told {
    for event in events(line) {
        for time in [TIME, TIME + 2] {
            let mut history = history.clone();
            history.call(timed(PAIR, time, event.clone()), run)?;
            history.call(Call::List { tenant: PAIR.0, room: 1024 }, run)?;
        }
    }
    for event in samples(line) {
        for time in [0, TIME - 1, TIME + 1, TIME + 29, TIME + 30].iter().chain(&HUGE) {
            history.tried(timed(PAIR, *time, event.clone()), run)?;
        }
        for pair in [(2, 0), (2, 4), (16, 1), (1, 5), (u64::MAX, 1), (2, u64::MAX), (LAST + 3, 1)] {
            history.tried(timed(pair, TIME, event.clone()), run)?;
        }
    }
    for call in [Call::Open { tenant: 2, line: 1 }, Call::Close { tenant: 2, line: 1 }, Call::Close { tenant: 2, line: 2 }] {
        history.tried(call, run)?;
    }
    Ok(())
}

/// One good event of each kind.
pub fn samples(line: &Line) -> Vec<Event> {
    let identifier = match line.phase {
        Phase::Eap(_, _, identifier) => identifier as u8,
        _ => 7,
    };
    let packets = [lent::start_packet(identifier), lent::nas_request(identifier, b"nas"), lent::success(identifier)];
    let mut samples = vec![start(0, 0, 4, text()), start(1, 0, 6, text()), start(2, 310, 4, text())];
    samples.extend([country(1, lent::networks(&[(310, 410)])), country(0, vec![]), address(&[FOUR, SIX])]);
    samples.extend(packets.map(|packet| Event::Eap { packet }));
    samples.extend([Event::Begin, Event::Init, Event::GiveUp, Event::IkeDelete]);
    samples.extend([reply(b"\x01\x00", b"nas"), Event::Final { good: 1 }, Event::Error { number: 14 }]);
    samples.extend([Event::Congestion { authenticated: 1, timer: 0x61 }, Event::ChildMade { spi: 300, session: 5 }]);
    samples.extend([Event::ChildDeleted { spi: 300 }, Event::ChildDeleted { spi: 256 }]);
    samples
}

/// The event that the phase of a line asks for.
pub fn onward(line: &Line) -> Event {
    match line.phase {
        Phase::Idle => start(1, 0, 4, text()),
        Phase::Country(_) => country(1, vec![]),
        Phase::Name(_) => address(&[&line.holds.iter().map(|hold| hold.address).collect::<Vec<_>>()[..], &[FOUR, SIX]].concat()),
        Phase::Chosen(_) => Event::Begin,
        Phase::Init(_) => Event::Init,
        Phase::Auth(_) => Event::Eap { packet: lent::start_packet(7) },
        Phase::Eap(_, Turn::NoneOwed, identifier) => Event::Eap { packet: lent::success(identifier as u8) },
        Phase::Eap(..) => reply(b"\x01\x00", b"nas"),
        Phase::Sure(_) => Event::Final { good: 1 },
        Phase::Live(_) => match line.children.first() {
            Some(child) => Event::ChildDeleted { spi: child.spi },
            None => Event::ChildMade { spi: 300, session: 5 },
        },
    }
}

pub fn text() -> Vec<u8> {
    b"home\t262\t01\nplmn\t310\t410\t5\nplmn\t310\t02\t5\nplmn\t262\t01\t0\nbar\t310\t03\n".to_vec()
}

pub fn start(place: u64, mcc: u64, version: u64, text: Vec<u8>) -> Event {
    Event::Start { place, mcc, registered: 0, registered_mcc: 0, registered_mnc: 0, version, text, room: 64 }
}

pub fn country(replied: u64, networks: Vec<u8>) -> Event {
    Event::Country { replied, networks, text: text(), room: 64 }
}

fn address(list: &[Address]) -> Event {
    Event::Address { addresses: lent::addresses(list) }
}

pub fn reply(parameters: &[u8], nas: &[u8]) -> Event {
    Event::Reply { parameters: parameters.to_vec(), nas: nas.to_vec(), room: 3090 }
}

/// The samples, and each with every number at and beyond its bounds.
fn events(line: &Line) -> Vec<Event> {
    let mut events = samples(line);
    for sample in samples(line) {
        for place in 0..sample.clone().shape().numbers.len() {
            for number in [0, 1, 2, 3, 4, 5, 6, 7, 15, 16, 255, 256, 262, 310, 999, 1000, 16383, 16384].iter().chain(&HUGE) {
                let mut event = sample.clone();
                *event.shape().numbers[place] = *number;
                events.push(event);
            }
        }
    }
    events.extend(registrations());
    let nodes = [Node::None, Node::Name("gw.example".into()), Node::Address(FOUR), Node::Address(SIX), Node::Address(holds(1)[0].address)];
    for node in nodes {
        let text = lent::home_text((262, 1), &node);
        events.extend([(1, 0), (2, 310)].map(|(place, mcc)| start(place, mcc, 4, text.clone())));
        events.push(Event::Country { replied: 1, networks: vec![], text, room: 64 });
    }
    events.push(Event::Country { replied: 1, networks: vec![], text: b"home\t310\t01\n".to_vec(), room: 64 });
    events.push(Event::Country { replied: 1, networks: lent::networks(&[(310, 3)]), text: text(), room: 64 });
    events.extend([address(&[]), address(&[SIX]), address(&[SIX, holds(1)[0].address, FOUR]), address(&[FOUR; 16]), address(&[FOUR; 17])]);
    events.extend([reply(b"", b"nas"), reply(b"", b""), reply(b"\x01", b""), reply(b"\x01", b"nas")]);
    events.extend((0..16).map(|session| Event::ChildMade { spi: 256, session }));
    events
}

/// Start with registered PLMNs, with numbers that contradict each other among them.
fn registrations() -> Vec<Event> {
    let numbers = [(1, 310, 410), (1, 310, 3), (1, 262, 1), (1, 999, 999), (1, 1000, 0), (1, 0, 1000), (0, 310, 0), (0, 0, 410), (2, 0, 0)];
    let started = |place: u64, mcc, (registered, registered_mcc, registered_mnc)| Event::Start {
        place,
        mcc,
        registered,
        registered_mcc,
        registered_mnc,
        version: 6,
        text: text(),
        room: 64,
    };
    numbers.iter().flat_map(|plmn| [started(0, 0, *plmn), started(1, 0, *plmn), started(2, 310, *plmn)]).collect()
}

/// Up to three things wrong at once, so that the lowest refusal has to be found.
fn refusals_together(history: &History, line: &Line, run: &mut Run) -> Told {
    const WRONGS: u32 = 10;
    for event in samples(line) {
        for wrongs in (0u32..1 << WRONGS).filter(|wrongs| wrongs.count_ones() <= 3) {
            let mut call = timed(PAIR, TIME, event.clone());
            (0..WRONGS).filter(|wrong| wrongs >> wrong & 1 == 1).for_each(|wrong| spoil(&mut call, wrong));
            history.tried(call, run)?;
        }
    }
    Ok(())
}

/// One thing made wrong: the pair, the answer buffer, the time, a number, a slice.
fn spoil(call: &mut Call, wrong: u32) {
    let mut shape = call.shape();
    let last = shape.numbers.len() - 1;
    match wrong {
        0 => *shape.numbers[0] = 16,
        1 => *shape.numbers[1] = 0,
        2 => *shape.numbers[2] = TIME - 1,
        3 => *shape.numbers[2] = LAST + 1,
        4 if last > 2 => *shape.numbers[last] = LAST + 1,
        5 => shape.room.into_iter().for_each(|room| *room -= 1),
        6 | 7 => {
            shape.slices.into_iter().skip(wrong as usize - 6).take(1).for_each(|octets| octets.truncate(octets.len().saturating_sub(1)))
        }
        8 | 9 => shape.slices.into_iter().skip(wrong as usize - 8).take(1).for_each(|octets| octets.resize(octets.len() + 5000, 0)),
        _ => (),
    }
}
