//! The table's octets by docs/TABLE.md: when they are sound, the lines that they hold, and how a line is written.

pub const RECORDS: usize = 32;
pub const RECORD: usize = 243;
pub const TABLE: usize = RECORDS * RECORD;
const HOLD: usize = 22;
const CHILD: usize = 5;

/// Version 4 or 6, and the address as one number.
#[derive(Clone, Copy, Debug, PartialEq, Eq)]
pub struct Address {
    pub version: u64,
    pub number: u128,
}

/// What start said: the visited MCC unless the line is at home, the registered PLMN, the local IP version.
#[derive(Clone, Copy, Debug, PartialEq, Eq)]
pub struct Facts {
    pub visited: Option<u64>,
    pub registered: Option<(u64, u64)>,
    pub version: u64,
}

/// How far an EAP session is.
#[derive(Clone, Copy, Debug, PartialEq, Eq)]
pub enum Turn {
    FirstOwed,
    Owed,
    NoneOwed,
}

#[derive(Clone, Copy, Debug, PartialEq, Eq)]
pub enum Phase {
    Idle,
    Country(Facts),
    Name(Facts),
    Chosen(Address),
    Init(Address),
    Auth(Address),
    Eap(Address, Turn, u64),
    Sure(Address),
    Live(Address),
}

/// A hold without end has none.
#[derive(Clone, Copy, Debug, PartialEq, Eq)]
pub struct Hold {
    pub address: Address,
    pub end: Option<u64>,
}

#[derive(Clone, Copy, Debug, PartialEq, Eq)]
pub struct Child {
    pub spi: u64,
    pub session: u64,
}

#[derive(Clone, Debug, PartialEq, Eq)]
pub struct Line {
    pub time: u64,
    pub phase: Phase,
    pub holds: Vec<Hold>,
    pub children: Vec<Child>,
}

pub type Pair = (u64, u64);

impl Phase {
    fn chosen(&self) -> Option<Address> {
        match *self {
            Phase::Idle | Phase::Country(_) | Phase::Name(_) => None,
            Phase::Chosen(address) | Phase::Init(address) | Phase::Auth(address) => Some(address),
            Phase::Eap(address, ..) | Phase::Sure(address) | Phase::Live(address) => Some(address),
        }
    }
}

/// The lines of a sound table in the order of their records; none where the table is not sound.
pub fn lines(table: &[u8]) -> Option<Vec<(Pair, Line)>> {
    if table.len() != TABLE {
        return None;
    }
    let mut lines: Vec<(Pair, Line)> = Vec::new();
    for record in table.chunks_exact(RECORD).filter(|record| !zeros(record)) {
        let pair = pair_of(record[0])?;
        if lines.iter().any(|(other, _)| *other == pair) {
            return None;
        }
        lines.push((pair, line_of(record)?));
    }
    Some(lines)
}

/// The line of one pair in a sound table; faster than all lines.
pub fn line_at(table: &[u8], pair: Pair) -> Option<Line> {
    table.chunks_exact(RECORD).find(|record| record[0] != 0 && pair_of(record[0]) == Some(pair)).and_then(line_of)
}

fn pair_of(octet: u8) -> Option<Pair> {
    (1..=64).contains(&octet).then(|| (u64::from(octet - 1) / 4, u64::from(octet - 1) % 4))
}

/// The line of a record that is not free and sound by itself.
pub fn line_of(record: &[u8]) -> Option<Line> {
    let line = Line {
        time: number(&record[1..5]),
        phase: phase_of(record[5], &record[6..25])?,
        holds: entries(&record[27..203], HOLD, record[25], hold_of)?,
        children: entries(&record[203..243], CHILD, record[26], child_of)?,
    };
    is_sound(&line).then_some(line)
}

/// What a line's parts ask of each other.
fn is_sound(line: &Line) -> bool {
    let idle = line.phase == Phase::Idle;
    let live = matches!(line.phase, Phase::Live(_));
    let ends_later = |hold: &Hold| hold.end.is_none_or(|end| end > line.time);
    let is_chosen = |hold: &Hold| Some(hold.address) == line.phase.chosen();
    let addresses: Vec<Address> = line.holds.iter().map(|hold| hold.address).collect();
    let spis: Vec<u64> = line.children.iter().map(|child| child.spi).collect();
    (idle || line.holds.len() <= 7)
        && (live || line.children.is_empty())
        && line.holds.iter().all(|hold| ends_later(hold) && !is_chosen(hold))
        && all_differ(&addresses)
        && all_differ(&spis)
}

/// So many entries at the start and zeros behind them.
fn entries<T>(octets: &[u8], length: usize, count: u8, read: fn(&[u8]) -> Option<T>) -> Option<Vec<T>> {
    let used = octets.get(..length * usize::from(count))?;
    zeros(&octets[used.len()..]).then(|| used.chunks_exact(length).map(read).collect())?
}

fn hold_of(octets: &[u8]) -> Option<Hold> {
    let end = number(&octets[17..]);
    Some(Hold { address: address_of(&octets[..17])?, end: (end != 0).then_some(end) })
}

fn child_of(octets: &[u8]) -> Option<Child> {
    let child = Child { spi: number(&octets[..4]), session: u64::from(octets[4]) };
    (child.spi >= 256 && (1..=15).contains(&child.session)).then_some(child)
}

pub fn address_of(octets: &[u8]) -> Option<Address> {
    let number = octets[1..].iter().fold(0, |number, &octet| number << 8 | u128::from(octet));
    match octets[0] {
        4 if zeros(&octets[5..]) => Some(Address { version: 4, number: number >> 96 }),
        6 => Some(Address { version: 6, number }),
        _ => None,
    }
}

fn phase_of(phase: u8, data: &[u8]) -> Option<Phase> {
    let chosen = || zeros(&data[17..]).then(|| address_of(&data[..17]))?;
    Some(match phase {
        0 => zeros(data).then_some(Phase::Idle)?,
        1 => facts_of(data).filter(|facts| facts.visited.is_some()).map(Phase::Country)?,
        2 => Phase::Name(facts_of(data)?),
        3 => Phase::Chosen(chosen()?),
        4 => Phase::Init(chosen()?),
        5 => Phase::Auth(chosen()?),
        6 => Phase::Eap(address_of(&data[..17])?, turn_of(data[17])?, u64::from(data[18])),
        7 => Phase::Sure(chosen()?),
        8 => Phase::Live(chosen()?),
        _ => return None,
    })
}

fn turn_of(octet: u8) -> Option<Turn> {
    [Turn::FirstOwed, Turn::Owed, Turn::NoneOwed].get(usize::from(octet).checked_sub(1)?).copied()
}

fn facts_of(data: &[u8]) -> Option<Facts> {
    let [mcc, registered_mcc, registered_mnc] = [1, 4, 6].map(|at| number(&data[at..at + 2]));
    let visited = match data[0] {
        1 if mcc == 0 => None,
        2 if mcc <= 999 => Some(mcc),
        _ => return None,
    };
    let registered = match data[3] {
        0 if registered_mcc == 0 && registered_mnc == 0 => None,
        1 if registered_mcc <= 999 && registered_mnc <= 999 => Some((registered_mcc, registered_mnc)),
        _ => return None,
    };
    let version = u64::from(data[8]);
    (matches!(version, 4 | 6) && zeros(&data[9..])).then_some(Facts { visited, registered, version })
}

fn number(octets: &[u8]) -> u64 {
    octets.iter().fold(0, |number, &octet| number << 8 | u64::from(octet))
}

pub fn zeros(octets: &[u8]) -> bool {
    octets.iter().all(|&octet| octet == 0)
}

fn all_differ<T: PartialEq>(items: &[T]) -> bool {
    items.iter().enumerate().all(|(place, item)| !items[..place].contains(item))
}

/// The octets of a record.
pub fn record((tenant, line): Pair, content: &Line) -> Vec<u8> {
    let mut octets = vec![(1 + 4 * tenant + line) as u8];
    octets.extend(&content.time.to_be_bytes()[4..]);
    octets.extend(phase_octets(&content.phase));
    octets.extend([content.holds.len() as u8, content.children.len() as u8]);
    for hold in &content.holds {
        octets.extend(address_octets(hold.address));
        octets.extend(&hold.end.unwrap_or(0).to_be_bytes()[3..]);
    }
    octets.resize(27 + 8 * HOLD, 0);
    for child in &content.children {
        octets.extend(&child.spi.to_be_bytes()[4..]);
        octets.push(child.session as u8);
    }
    octets.resize(RECORD, 0);
    octets
}

/// The table that has these lines, and free records behind them.
pub fn table(lines: &[(Pair, Line)]) -> Vec<u8> {
    let mut octets: Vec<u8> = lines.iter().flat_map(|(pair, line)| record(*pair, line)).collect();
    octets.resize(TABLE, 0);
    octets
}

pub fn address_octets(address: Address) -> Vec<u8> {
    let mut octets = vec![address.version as u8];
    octets.extend(if address.version == 4 { address.number << 96 } else { address.number }.to_be_bytes());
    octets
}

fn phase_octets(phase: &Phase) -> Vec<u8> {
    let (place, data) = match *phase {
        Phase::Idle => (0, vec![]),
        Phase::Country(facts) => (1, facts_octets(facts)),
        Phase::Name(facts) => (2, facts_octets(facts)),
        Phase::Chosen(address) => (3, address_octets(address)),
        Phase::Init(address) => (4, address_octets(address)),
        Phase::Auth(address) => (5, address_octets(address)),
        Phase::Eap(address, turn, identifier) => (6, [address_octets(address), vec![turn as u8 + 1, identifier as u8]].concat()),
        Phase::Sure(address) => (7, address_octets(address)),
        Phase::Live(address) => (8, address_octets(address)),
    };
    let mut octets = vec![place];
    octets.extend(data);
    octets.resize(20, 0);
    octets
}

fn facts_octets(facts: Facts) -> Vec<u8> {
    let (mcc, mnc) = facts.registered.unwrap_or((0, 0));
    let mut octets = vec![1 + u8::from(facts.visited.is_some())];
    octets.extend(&facts.visited.unwrap_or(0).to_be_bytes()[6..]);
    octets.push(u8::from(facts.registered.is_some()));
    octets.extend(&mcc.to_be_bytes()[6..]);
    octets.extend(&mnc.to_be_bytes()[6..]);
    octets.push(facts.version as u8);
    octets
}
