//! Random calls that go by the state of the table, so that lines get far, fill up and meet every refusal.

use crate::draw;
use crate::flaws;
use crate::layout::{self, Address, Child, Hold, Line, Pair, Phase, Turn};
use crate::lent::{self, Plmn};
use crate::random::Random;
use crate::shape::Shaped;
use reference::{Call, Event};

const LAST_TIME: u64 = u32::MAX as u64;

/// What a history leans towards; numbers are percentages unless they say otherwise.
#[derive(Clone)]
struct Leaning {
    /// How many pairs it is about.
    pairs: usize,
    opens: u64,
    closes: u64,
    lists: u64,
    /// Events that the phase does not ask for.
    stray: u64,
    /// Events with something wrong in them.
    flawed: u64,
    /// Events that end an attempt or a live line.
    ends: u64,
    /// Congestion with a long timer, once an attempt has got to auth.
    holds: u64,
}

const LEANINGS: [Leaning; 5] = [
    Leaning { pairs: 4, opens: 3, closes: 1, lists: 4, stray: 5, flawed: 10, ends: 3, holds: 3 },
    Leaning { pairs: 2, opens: 2, closes: 0, lists: 2, stray: 3, flawed: 5, ends: 1, holds: 50 },
    Leaning { pairs: 3, opens: 2, closes: 0, lists: 5, stray: 3, flawed: 5, ends: 0, holds: 4 },
    Leaning { pairs: 64, opens: 12, closes: 2, lists: 8, stray: 5, flawed: 5, ends: 1, holds: 5 },
    Leaning { pairs: 6, opens: 5, closes: 3, lists: 5, stray: 40, flawed: 40, ends: 20, holds: 20 },
];

/// The pairs, PLMNs, addresses and texts of a history; few, so that they meet again.
pub struct Driver {
    leaning: Leaning,
    pairs: Vec<Pair>,
    plmns: Vec<Plmn>,
    addresses: Vec<Address>,
    texts: Vec<Vec<u8>>,
}

impl Driver {
    pub fn new(random: &mut Random) -> Driver {
        let leaning = random.pick(&LEANINGS);
        let mut pairs: Vec<Pair> = (0..64).map(|number| (number / 4, number % 4)).collect();
        random.shuffle(&mut pairs);
        pairs.truncate(leaning.pairs);
        let plmns = draw::plmns(random);
        let addresses = draw::addresses(random);
        let texts = (0..4).map(|_| draw::text(&plmns, &addresses, random)).collect();
        Driver { leaning, pairs, plmns, addresses, texts }
    }

    pub fn tenants(&self) -> Vec<u64> {
        let mut tenants: Vec<u64> = self.pairs.iter().map(|(tenant, _)| *tenant).collect();
        tenants.sort_unstable();
        tenants.dedup();
        tenants
    }

    /// The opens with which a history begins.
    pub fn opens(&self) -> Vec<Call> {
        self.pairs.iter().take(40).map(|(tenant, line)| Call::Open { tenant: *tenant, line: *line }).collect()
    }

    /// The next call on a table.
    pub fn call(&self, table: &[u8], random: &mut Random) -> Call {
        let Leaning { opens, closes, lists, .. } = self.leaning;
        let (tenant, line) = self.pair(table, random);
        match random.weighted(&[opens, closes, lists, 100 - opens - closes - lists]) {
            0 => self.open(random),
            1 => Call::Close { tenant, line },
            2 => Call::List { tenant, room: if random.chance(90) { 1024 } else { flaws::room(random) } },
            _ => self.timed(table, (tenant, line), random),
        }
    }

    fn open(&self, random: &mut Random) -> Call {
        let (tenant, line) = if random.chance(95) { random.pick(&self.pairs) } else { (random.below(18), random.below(6)) };
        Call::Open { tenant, line }
    }

    /// A pair, most often one that is open.
    fn pair(&self, table: &[u8], random: &mut Random) -> Pair {
        let open: Vec<Pair> = self.pairs.iter().copied().filter(|pair| layout::line_at(table, *pair).is_some()).collect();
        match random.below(100) {
            0 => (flaws::number(random), random.below(4)),
            1 => (random.below(16), flaws::number(random)),
            2 => (random.below(16), random.below(4)),
            3..=5 => random.pick(&self.pairs),
            _ if open.is_empty() => random.pick(&self.pairs),
            _ => random.pick(&open),
        }
    }

    fn timed(&self, table: &[u8], (tenant, line): Pair, random: &mut Random) -> Call {
        let found = layout::line_at(table, (tenant, line));
        let time = match &found {
            Some(line) => time(line, random),
            None => random.below(1000),
        };
        let mut event = match &found {
            Some(line) if !random.chance(self.leaning.stray) => self.event(line, random),
            _ => self.any(random),
        };
        while random.chance(self.leaning.flawed) {
            flaws::flaw(event.shape(), random);
        }
        Call::Timed { tenant, line, time, event }
    }

    /// An event that the line's phase asks for, or one that ends what it does.
    fn event(&self, line: &Line, random: &mut Random) -> Event {
        let attempted = matches!(line.phase, Phase::Auth(_) | Phase::Eap(..) | Phase::Sure(_));
        if attempted && random.chance(self.leaning.holds) {
            return Event::Congestion { authenticated: 1, timer: random.pick(&[0xe0, 0xe0, 0xdf, 0xc1, 0x41, 0x61, 0x7f, 0x00, 0xff]) };
        }
        match random.chance(self.leaning.ends) {
            true => self.ending(random),
            false => self.onward(&line.phase, &line.children, random),
        }
    }

    fn ending(&self, random: &mut Random) -> Event {
        match random.below(5) {
            0 => Event::Error { number: 1 + random.below(16383) },
            1 => Event::Congestion { authenticated: 1, timer: random.below(256) },
            2 => Event::GiveUp,
            3 => Event::Final { good: 0 },
            _ => Event::IkeDelete,
        }
    }

    fn onward(&self, phase: &Phase, children: &[Child], random: &mut Random) -> Event {
        match *phase {
            Phase::Idle => self.start(random),
            Phase::Country(_) => self.country(random),
            Phase::Name(_) => self.address(random),
            Phase::Chosen(_) => Event::Begin,
            Phase::Init(_) => Event::Init,
            Phase::Auth(_) => Event::Eap { packet: draw::extended(lent::start_packet(random.draw() as u8), random) },
            Phase::Eap(_, Turn::FirstOwed, _) => draw::reply(100, random),
            Phase::Eap(_, Turn::Owed, _) => draw::reply(50, random),
            Phase::Eap(_, Turn::NoneOwed, identifier) => draw::next_packet(identifier as u8, random),
            Phase::Sure(_) => Event::Final { good: 1 },
            Phase::Live(_) => draw::child(children, random),
        }
    }

    /// Any event, as good as it can be without a look at the line.
    fn any(&self, random: &mut Random) -> Event {
        match random.below(14) {
            0 => self.start(random),
            1 => self.country(random),
            2 => self.address(random),
            3 => Event::Begin,
            4 => Event::Init,
            5 => Event::Eap { packet: draw::any_packet(random) },
            6 => draw::reply(50, random),
            7 => Event::Final { good: random.below(2) },
            8 => Event::Congestion { authenticated: random.below(2), timer: random.below(256) },
            9 => draw::child(&[], random),
            10 => Event::ChildDeleted { spi: flaws::number(random) },
            _ => self.ending(random),
        }
    }

    fn start(&self, random: &mut Random) -> Event {
        let place = random.pick(&[0, 1, 1, 1, 1, 1, 1, 2, 2, 2, 2, 2, 2]);
        let registered = random.below(2);
        let (registered_mcc, registered_mnc) = if registered == 1 { random.pick(&self.plmns) } else { (0, 0) };
        let mcc = if place == 2 { random.pick(&self.plmns).0 } else { 0 };
        let version = random.pick(&[4, 6]);
        Event::Start { place, mcc, registered, registered_mcc, registered_mnc, version, text: random.pick(&self.texts), room: 64 }
    }

    fn country(&self, random: &mut Random) -> Event {
        let replied = u64::from(random.chance(90));
        let count = if replied == 1 { random.pick(&[0, 1, 1, 2, 3, 16]) } else { 0 };
        let listed: Vec<Plmn> = (0..count).map(|_| random.pick(&self.plmns)).collect();
        Event::Country { replied, networks: lent::networks(&listed), text: random.pick(&self.texts), room: 64 }
    }

    fn address(&self, random: &mut Random) -> Event {
        let count = random.pick(&[0, 1, 2, 3, 8, 15, 16]);
        let listed: Vec<Address> = (0..count).map(|_| random.pick(&self.addresses)).collect();
        Event::Address { addresses: lent::addresses(&listed) }
    }
}

/// A time for the next event of a line, most often one that is accepted, and often one at which a hold ends.
fn time(line: &Line, random: &mut Random) -> u64 {
    let end = |hold: &Hold| hold.end.unwrap_or(line.time + 1).min(LAST_TIME);
    match random.below(100) {
        0..=2 => random.below(line.time.max(1)),
        3 => flaws::number(random),
        4 => line.time.saturating_sub(1),
        5..=24 if !line.holds.is_empty() => {
            let end = end(&random.pick(&line.holds));
            (end + random.below(3)).saturating_sub(1).clamp(line.time, LAST_TIME)
        }
        25..=54 => line.time,
        55 if random.chance(5) => LAST_TIME,
        56..=58 => (line.time + random.below(40_000)).min(LAST_TIME),
        _ => (line.time + random.below(3)).min(LAST_TIME),
    }
}
