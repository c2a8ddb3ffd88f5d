//! The stored requests about selection and leaves (corpus/README.md), made through the exported calls.

use crate::history::{packet, History, Run, Told};
use crate::layout::{self, Address, Facts, Hold, Line, Pair, Phase, Turn};
use crate::lent;
use crate::phases::reached;
use crate::reach;
use crate::requests::{no_request, number, octets, requests};
use reference::{Call, Event, PacketCall};

const FILES: [(&str, &[u8]); 2] =
    [("selection.txt", include_bytes!("../corpus/selection.txt")), ("leaves.txt", include_bytes!("../corpus/leaves.txt"))];

const PAIR: Pair = (0, 0);
const FOUR: Address = Address { version: 4, number: 0xc000_0207 };

/// Makes every request; how many there are.
pub fn all(run: &mut Run) -> Result<u64, String> {
    let ready = Ready::new(run)?;
    let mut made = 0;
    for (name, file) in FILES {
        for (line, fields) in (1..).zip(requests(file)) {
            ready.request(&fields, run).ok_or_else(|| no_request(name, line))??;
            made += 1;
        }
    }
    Ok(made)
}

/// Histories that the requests start from.
struct Ready {
    idle: History,
    country: History,
    auth: History,
    owing: [History; 2],
    replied: History,
}

impl Ready {
    fn new(run: &mut Run) -> Result<Ready, String> {
        let mut in_phase = |phase| reached(&[(PAIR, Line { time: 5, phase, holds: vec![], children: vec![] })], run);
        Ok(Ready {
            idle: in_phase(Phase::Idle)?,
            country: in_phase(Phase::Country(Facts { visited: Some(310), registered: Some((310, 2)), version: 4 }))?,
            auth: in_phase(Phase::Auth(FOUR))?,
            owing: [in_phase(Phase::Eap(FOUR, Turn::FirstOwed, 7))?, in_phase(Phase::Eap(FOUR, Turn::Owed, 7))?],
            replied: in_phase(Phase::Eap(FOUR, Turn::NoneOwed, 7))?,
        })
    }

    /// Makes one request; none where the line is no request.
    fn request(&self, fields: &[&[u8]], run: &mut Run) -> Option<Told> {
        match *fields {
            [b"config", text] => Some(self.config(&spelt(text), run)),
            [b"cuts", text] => Some(self.cuts(&spelt(text), run)),
            [b"left", text] => Some(self.left(&spelt(text), run)),
            [b"struck", text, octet] => Some(self.struck(&spelt(text), *octets(octet)?.first()?, run)),
            [b"start", text, place, mcc, mnc, version, held] => {
                Some(made(&holding(held)?, vec![start(&spelt(text), place, registered(mcc, mnc)?, number(version)?)?], run))
            }
            [b"country", text, visited, mcc, mnc, version, held, replied, networks] => {
                let home = if number(visited) == Some(1) { b"home\t002\t01\n" } else { b"home\t001\t01\n" };
                let start = start(home, visited, registered(mcc, mnc)?, number(version)?)?;
                let (replied, networks) = (number(replied)?, octets(networks)?);
                Some(made(&holding(held)?, vec![start, Event::Country { replied, networks, text: spelt(text), room: 64 }], run))
            }
            [b"address", version, held, addresses] => {
                let asked = start(b"home\t001\t01\n", b"home", None, number(version)?)?;
                Some(made(&holding(held)?, vec![asked, Event::Address { addresses: octets(addresses)? }], run))
            }
            [b"packet", packet] => Some(self.packet(octets(packet)?, run)),
            [b"block", block] => Some(self.block(octets(block)?, run)),
            [b"timer", octet] => Some(self.timer(*octets(octet)?.first()?, run)),
            [b"parameter", block, at] => Some(packet(PacketCall::Parameter { parameters: octets(block)?, at: number(at)? }, run).map(drop)),
            [b"response", room, identifier, parameters, nas] => {
                let (parameters, nas) = (octets(parameters)?, octets(nas)?);
                let response = PacketCall::WriteResponse { identifier: number(identifier)?, parameters, nas, room: number(room)? as usize };
                Some(packet(response, run).map(drop))
            }
            [b"operator", mcc, mnc] => Some(self.name(1, 0, (number(mcc)?, number(mnc)?), run)),
            [b"visited", mcc] => Some(self.name(2, number(mcc)?, (1, 1), run)),
            _ => None,
        }
    }

    /// A text with every place and in front of every kind of country answer.
    fn config(&self, text: &[u8], run: &mut Run) -> Told {
        let plmn = Some((310, 2));
        for (place, registered) in [("unknown", None), ("home", None), ("310", None), ("310", plmn), ("262", None), ("999", plmn)] {
            for version in [4, 6] {
                let event = start(text, place.as_bytes(), registered, version).expect("each is a place");
                self.tried(&self.idle, event, run)?;
            }
        }
        let lists: [&[lent::Plmn]; 5] = [&[], &[(310, 2)], &[(310, 1), (310, 3)], &[(262, 1)], &[(901, 1), (262, 7), (310, 2)]];
        for (replied, list) in [(0, lists[0])].into_iter().chain(lists.map(|list| (1, list))) {
            let networks = lent::networks(list);
            self.tried(&self.country, Event::Country { replied, networks, text: text.to_vec(), room: 64 }, run)?;
        }
        Ok(())
    }

    fn at_home(&self, text: Vec<u8>, run: &mut Run) -> Told {
        let event = start(&text, b"home", None, 4).expect("home is a place");
        self.tried(&self.idle, event, run)
    }

    fn cuts(&self, text: &[u8], run: &mut Run) -> Told {
        (0..=text.len()).try_for_each(|length| self.at_home(text[..length].to_vec(), run))
    }

    fn left(&self, text: &[u8], run: &mut Run) -> Told {
        (0..text.len()).try_for_each(|place| self.at_home([&text[..place], &text[place + 1..]].concat(), run))
    }

    fn struck(&self, text: &[u8], octet: u8, run: &mut Run) -> Told {
        (0..text.len()).try_for_each(|place| self.at_home([&text[..place], &[octet], &text[place + 1..]].concat(), run))
    }

    fn packet(&self, octets: Vec<u8>, run: &mut Run) -> Told {
        packet(PacketCall::ReadRequest { packet: octets.clone() }, run)?;
        packet(PacketCall::ReadResponse { packet: octets.clone() }, run)?;
        for history in [&self.auth, &self.owing[0], &self.replied] {
            self.tried(history, Event::Eap { packet: octets.clone() }, run)?;
        }
        Ok(())
    }

    /// A block written and read: in replies, in a response without a table, and parameter by parameter.
    fn block(&self, parameters: Vec<u8>, run: &mut Run) -> Told {
        for history in &self.owing {
            self.tried(history, Event::Reply { parameters: parameters.clone(), nas: vec![0x7e], room: 3090 }, run)?;
        }
        packet(PacketCall::WriteResponse { identifier: 7, parameters: parameters.clone(), nas: vec![0x7e], room: 3090 }, run)?;
        packet(PacketCall::ReadResponse { packet: lent::nas_response(7, &parameters, &[0x7e]) }, run)?;
        (0..=parameters.len() as u64 + 1)
            .try_for_each(|at| packet(PacketCall::Parameter { parameters: parameters.clone(), at }, run).map(drop))
    }

    fn timer(&self, octet: u8, run: &mut Run) -> Told {
        packet(PacketCall::Timer { octet: octet.into() }, run)?;
        self.tried(&self.auth, Event::Congestion { authenticated: 1, timer: octet.into() }, run)
    }

    fn name(&self, place: u64, mcc: u64, home: lent::Plmn, run: &mut Run) -> Told {
        let text = lent::home_text(home, &lent::Node::None);
        let event = Event::Start { place, mcc, registered: 0, registered_mcc: 0, registered_mnc: 0, version: 4, text, room: 64 };
        self.tried(&self.idle, event, run)
    }

    fn tried(&self, history: &History, event: Event, run: &mut Run) -> Told {
        history.tried(Call::Timed { tenant: PAIR.0, line: PAIR.1, time: 5, event }, run).map(drop)
    }
}

/// The calls that lead an idle line to these holds, without end.
fn holding(held: &[u8]) -> Option<Vec<Call>> {
    let addresses: Option<Vec<Address>> = octets(held)?.chunks(17).map(|entry| layout::address_of(entry.get(..17)?)).collect();
    let holds: Vec<Hold> = addresses?.into_iter().map(|address| Hold { address, end: None }).collect();
    reach::calls(&[(PAIR, Line { time: 5, phase: Phase::Idle, holds, children: vec![] })])
}

/// Makes some calls and then some events on a fresh table.
fn made(calls: &[Call], events: Vec<Event>, run: &mut Run) -> Told {
    let mut history = History::new(run.seed);
    calls.iter().try_for_each(|call| history.call(call.clone(), run).map(drop))?;
    events.into_iter().try_for_each(|event| history.call(Call::Timed { tenant: PAIR.0, line: PAIR.1, time: 5, event }, run).map(drop))
}

/// The registered PLMN, perhaps none, that two fields give; nothing where they give neither.
fn registered(mcc: &[u8], mnc: &[u8]) -> Option<Option<lent::Plmn>> {
    match (mcc, mnc) {
        (b"-", b"-") => Some(None),
        _ => Some(Some((number(mcc)?, number(mnc)?))),
    }
}

/// A start; none where the place is not spelt as requests spell it.
fn start(text: &[u8], place: &[u8], registered: Option<lent::Plmn>, version: u64) -> Option<Event> {
    let (place, mcc) = match place {
        b"unknown" => (0, 0),
        b"home" => (1, 0),
        mcc => (2, number(mcc)?),
    };
    let (registered_mcc, registered_mnc) = registered.unwrap_or((0, 0));
    let registered = u64::from(registered.is_some());
    Some(Event::Start { place, mcc, registered, registered_mcc, registered_mnc, version, text: text.to_vec(), room: 64 })
}

/// A text as the requests spell it: `|` for a tab, `;` for a newline.
fn spelt(text: &[u8]) -> Vec<u8> {
    let octet = |octet: &u8| match octet {
        b'|' => b'\t',
        b';' => b'\n',
        other => *other,
    };
    text.iter().map(octet).collect()
}
