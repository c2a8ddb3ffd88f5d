//! The model's state in the form of the table's lines, and the model that has given lines.

use crate::layout::{Address, Child, Facts, Hold, Line, Pair, Phase, Turn};
use reference::{Place, Plmn, Session, Table};

/// The lines of the model by rising pair.
pub fn lines(model: &Table) -> Vec<(Pair, Line)> {
    model.lines().map(|(pair, line)| (pair, line_of(line))).collect()
}

fn line_of(line: &reference::Line) -> Line {
    use reference::Phase as Model;
    let (phase, children) = match &line.phase {
        Model::Idle => (Phase::Idle, &[][..]),
        Model::Country(facts) => (Phase::Country(facts_of(facts)), &[][..]),
        Model::Name(facts) => (Phase::Name(facts_of(facts)), &[][..]),
        Model::Chosen(address) => (Phase::Chosen(address_of(address)), &[][..]),
        Model::Init(address) => (Phase::Init(address_of(address)), &[][..]),
        Model::Auth(address) => (Phase::Auth(address_of(address)), &[][..]),
        Model::Eap(address, session) => (session_of(address_of(address), session), &[][..]),
        Model::Sure(address) => (Phase::Sure(address_of(address)), &[][..]),
        Model::Live(address, children) => (Phase::Live(address_of(address)), children.as_slice()),
    };
    Line {
        time: line.time,
        phase,
        holds: line.holds.iter().map(|hold| Hold { address: address_of(&hold.address), end: hold.until }).collect(),
        children: children.iter().map(|child| Child { spi: child.spi, session: child.session }).collect(),
    }
}

fn address_of(address: &reference::Address) -> Address {
    match *address {
        reference::Address::V4(number) => Address { version: 4, number: number.into() },
        reference::Address::V6(number) => Address { version: 6, number },
    }
}

fn facts_of(facts: &reference::Facts) -> Facts {
    let visited = match facts.place {
        Place::Abroad { mcc } => Some(mcc),
        _ => None,
    };
    Facts { visited, registered: facts.registered.map(|plmn| (plmn.mcc, plmn.mnc)), version: facts.version }
}

fn session_of(address: Address, session: &Session) -> Phase {
    match *session {
        Session::Owed { identifier, first: true } => Phase::Eap(address, Turn::FirstOwed, identifier.into()),
        Session::Owed { identifier, first: false } => Phase::Eap(address, Turn::Owed, identifier.into()),
        Session::Replied { identifier } => Phase::Eap(address, Turn::NoneOwed, identifier.into()),
    }
}

/// The model that has the lines of a sound table.
pub fn with(lines: &[(Pair, Line)]) -> Table {
    Table::of_lines(lines.iter().map(|(pair, line)| (*pair, to_line(line))))
}

fn to_line(line: &Line) -> reference::Line {
    let holds = line.holds.iter().map(|hold| reference::Hold { address: to_address(hold.address), until: hold.end });
    reference::Line { time: line.time, phase: to_phase(line), holds: holds.collect() }
}

fn to_phase(line: &Line) -> reference::Phase {
    use reference::Phase as Model;
    match line.phase {
        Phase::Idle => Model::Idle,
        Phase::Country(facts) => Model::Country(to_facts(facts)),
        Phase::Name(facts) => Model::Name(to_facts(facts)),
        Phase::Chosen(address) => Model::Chosen(to_address(address)),
        Phase::Init(address) => Model::Init(to_address(address)),
        Phase::Auth(address) => Model::Auth(to_address(address)),
        Phase::Eap(address, turn, identifier) => Model::Eap(to_address(address), to_session(turn, identifier as u8)),
        Phase::Sure(address) => Model::Sure(to_address(address)),
        Phase::Live(address) => Model::Live(to_address(address), line.children.iter().map(to_child).collect()),
    }
}

fn to_address(address: Address) -> reference::Address {
    match address.version {
        4 => reference::Address::V4(address.number as u32),
        _ => reference::Address::V6(address.number),
    }
}

fn to_facts(facts: Facts) -> reference::Facts {
    let place = facts.visited.map_or(Place::Home, |mcc| Place::Abroad { mcc });
    reference::Facts { place, registered: facts.registered.map(|(mcc, mnc)| Plmn { mcc, mnc }), version: facts.version }
}

fn to_session(turn: Turn, identifier: u8) -> Session {
    match turn {
        Turn::FirstOwed => Session::Owed { identifier, first: true },
        Turn::Owed => Session::Owed { identifier, first: false },
        Turn::NoneOwed => Session::Replied { identifier },
    }
}

fn to_child(child: &Child) -> reference::Child {
    reference::Child { spi: child.spi, session: child.session }
}
