//! The life of a line: what each event does to it, and in which phase.

use crate::answer::{Accepted, Action, Holder, Outcome};
use crate::call::{refuse_if, Event, Refused};
use crate::config::{read_list, Address, Config, Plmn};
use crate::hold::{Hold, Timer};
use crate::packet::{ends_exactly, fields_fit, read_request, write_response, Request, FIRST_FIELD};
use crate::selection::{at_addresses, at_country, at_start, Facts};

/// An open line: its last accepted time, its phase with the data of that phase, and its holds; at first idle at time 0 without holds.
#[derive(Clone, Debug, Default, PartialEq, Eq)]
pub struct Line {
    pub time: u64,
    pub phase: Phase,
    pub holds: Vec<Hold>,
}

/// The phase: place facts while DNS runs, the chosen address from then on, identifiers during EAP, children while live.
#[derive(Clone, Debug, Default, PartialEq, Eq)]
pub enum Phase {
    #[default]
    Idle,
    Country(Facts),
    Name(Facts),
    Chosen(Address),
    Init(Address),
    Auth(Address),
    Eap(Address, Session),
    Sure(Address),
    Live(Address, Vec<Child>),
}

/// An EAP session: a reply with this identifier is owed (perhaps the first of the session), or the last reply had it.
#[derive(Clone, Copy, Debug, PartialEq, Eq)]
pub enum Session {
    Owed { identifier: u8, first: bool },
    Replied { identifier: u8 },
}

/// A child association; a live line keeps them in the order made.
#[derive(Clone, Copy, Debug, PartialEq, Eq)]
pub struct Child {
    pub spi: u64,
    pub session: u64,
}

impl Line {
    /// The line as a call at this time finds it: the time is stored, and the holds that have ended are dropped.
    pub(crate) fn at(&self, time: u64) -> Line {
        let holds = self.holds.iter().copied().filter(|hold| hold.is_in_force_at(time)).collect();
        Line { time, phase: self.phase.clone(), holds }
    }

    /// Lets an event happen to the line as [`Line::at`] gives it: events with more to test than a flag have a function each.
    pub(crate) fn happen(&mut self, event: &Event) -> Outcome {
        match (event, &self.phase) {
            (Event::Start { place, mcc, registered, registered_mcc, registered_mnc, version, text, .. }, _) => {
                self.start(Facts::of_numbers(*place, *mcc, *registered, (*registered_mcc, *registered_mnc), *version), text)
            }
            (Event::Country { replied, networks, text, .. }, _) => self.country(*replied, networks, text),
            (Event::Address { addresses }, _) => self.address(addresses),
            // Begin opens IKE to the chosen address, and the init answer asks for EAP by leaving AUTH out.
            (Event::Begin, Phase::Chosen(address)) => self.enter(Phase::Init(*address), Action::SendInit),
            (Event::Init, Phase::Init(address)) => self.enter(Phase::Auth(*address), Action::SendAuthRequest),
            (Event::Eap { packet }, _) => self.eap(packet),
            (Event::Reply { parameters, nas, .. }, _) => self.reply(parameters, nas),
            // A good AUTH makes the line live, still without children, and a bad one releases it.
            (Event::Final { good: 2.. }, _) => Err(Refused(8)),
            (Event::Final { good: 1 }, Phase::Sure(address)) => self.enter(Phase::Live(*address, Vec::new()), Action::GoLive),
            (Event::Final { good: 0 }, Phase::Sure(_)) => self.enter(Phase::Idle, Action::Release),
            (Event::Error { number }, _) => self.error(*number),
            (Event::Congestion { authenticated, timer }, _) => self.congestion(*authenticated, *timer),
            // Giving up ends whatever is under way without a word, an EAP session too.
            (Event::GiveUp, phase) if !matches!(phase, Phase::Idle | Phase::Live(..)) => self.enter(Phase::Idle, Action::Nothing),
            (Event::ChildMade { spi, session }, _) => self.child_made(*spi, *session),
            (Event::ChildDeleted { spi }, _) => self.child_deleted(*spi),
            // An IKE delete releases a live line, and its children go with it.
            (Event::IkeDelete, Phase::Live(..)) => self.enter(Phase::Idle, Action::Release),
            (Event::Begin | Event::Init | Event::Final { .. } | Event::GiveUp | Event::IkeDelete, _) => Err(Refused(10)),
        }
    }

    /// Start: an idle line with fewer than eight holds in force begins to choose a gateway.
    fn start(&mut self, facts: Option<Facts>, text: &[u8]) -> Outcome {
        let facts = facts.ok_or(Refused(8))?;
        let config = read_text(text, facts.visited())?;
        refuse_if(self.phase != Phase::Idle, 10)?;
        refuse_if(self.holds.len() >= 8, 13)?;
        self.select(at_start(&facts, &config, &self.holds), facts)
    }

    /// Country answer: the line goes on with S4; without a reply there is no list, not even an empty one.
    fn country(&mut self, replied: u64, networks: &[u8], text: &[u8]) -> Outcome {
        let networks = read_list(networks, 4, Plmn::of_entry).ok_or(Refused(8))?;
        refuse_if(replied > 1 || (replied == 0 && !networks.is_empty()), 8)?;
        let visited = if let Phase::Country(facts) = self.phase { facts.visited() } else { None };
        let config = read_text(text, visited)?;
        let Phase::Country(facts) = self.phase else { return Err(Refused(10)) };
        let networks = (replied == 1).then_some(networks.as_slice());
        self.select(at_country(networks, &facts, &config, &self.holds), facts)
    }

    /// Address answer: the line goes on with S5; no reply comes as an empty list.
    fn address(&mut self, addresses: &[u8]) -> Outcome {
        let addresses = read_list(addresses, 17, Address::of_entry).ok_or(Refused(8))?;
        let Phase::Name(facts) = self.phase else { return Err(Refused(10)) };
        self.select(at_addresses(&addresses, facts.version, &self.holds), facts)
    }

    /// EAP: Start opens a session in auth, NAS and Success need one in which no reply is owed, Success also the last reply's identifier.
    fn eap(&mut self, packet: &[u8]) -> Outcome {
        match (&self.phase, read_request(packet).ok_or(Refused(9))?) {
            (Phase::Auth(address), Request::Start { identifier }) => {
                self.enter(Phase::Eap(*address, Session::Owed { identifier, first: true }), Action::AskForNas)
            }
            (Phase::Eap(address, Session::Replied { .. }), Request::Nas { identifier, nas }) => {
                let nas = Accepted { part_is_in: Holder::Packet, part_start: FIRST_FIELD, part: nas.to_vec(), ..Action::HandNasUp.into() };
                self.enter(Phase::Eap(*address, Session::Owed { identifier, first: false }), nas)
            }
            (Phase::Eap(address, Session::Replied { identifier: last }), Request::Success { identifier }) if identifier == *last => {
                self.enter(Phase::Sure(*address), Action::SendAuth)
            }
            _ => Err(Refused(10)),
        }
    }

    /// Reply: the response is written with the identifier that is owed; the first one of a session must have AN-parameters.
    fn reply(&mut self, parameters: &[u8], nas: &[u8]) -> Outcome {
        let first_is_owed = matches!(self.phase, Phase::Eap(_, Session::Owed { first: true, .. }));
        refuse_if(!fields_fit(parameters, nas), 8)?;
        refuse_if(first_is_owed && parameters.is_empty(), 8)?;
        refuse_if(!ends_exactly(parameters), 9)?;
        let Phase::Eap(address, Session::Owed { identifier, .. }) = self.phase else { return Err(Refused(10)) };
        let written = write_response(identifier, parameters, nas);
        let sent = Accepted { written, ..Action::SendResponse.into() };
        self.enter(Phase::Eap(address, Session::Replied { identifier }), sent)
    }

    /// Error notify: any number of the range ends the attempt and is handed up.
    fn error(&mut self, number: u64) -> Outcome {
        refuse_if(!(1..=16_383).contains(&number), 8)?;
        let (_, eap_ended) = self.authenticating().ok_or(Refused(10))?;
        self.enter(Phase::Idle, Accepted { error: number, eap_ended, ..Action::HandErrorUp.into() })
    }

    /// Congestion: believed only of an authenticated network, it ends the attempt and holds the address as the timer says.
    fn congestion(&mut self, authenticated: u64, timer: u64) -> Outcome {
        refuse_if(authenticated > 1, 8)?;
        let timer = Timer::read(u8::try_from(timer).or(Err(Refused(8)))?);
        refuse_if(authenticated == 0, 10)?;
        let (address, eap_ended) = self.authenticating().ok_or(Refused(10))?;
        self.holds.extend(Hold::set(address, self.time, timer));
        self.enter(Phase::Idle, Accepted { eap_ended, ..Action::Release.into() })
    }

    /// Child made: a live line takes up to eight, each with an SPI of its own from 256 and a session of 1 to 15.
    fn child_made(&mut self, spi: u64, session: u64) -> Outcome {
        refuse_if(!(256..=4_294_967_295).contains(&spi) || !(1..=15).contains(&session), 8)?;
        let Phase::Live(_, children) = &mut self.phase else { return Err(Refused(10)) };
        refuse_if(children.iter().any(|child| child.spi == spi), 11)?;
        refuse_if(children.len() >= 8, 12)?;
        children.push(Child { spi, session });
        Ok(Accepted::default())
    }

    /// Child deleted: the child goes and the others keep their order; an SPI that is not there is 10, whatever its number.
    fn child_deleted(&mut self, spi: u64) -> Outcome {
        let Phase::Live(_, children) = &mut self.phase else { return Err(Refused(10)) };
        refuse_if(!children.iter().any(|child| child.spi == spi), 10)?;
        children.retain(|child| child.spi != spi);
        Ok(Accepted::default())
    }

    /// Enters a phase and accepts the call.
    fn enter(&mut self, phase: Phase, accepted: impl Into<Accepted>) -> Outcome {
        self.phase = phase;
        Ok(accepted.into())
    }

    /// A step of the selection leads to its phase: an address is chosen, a question waits with the place facts, a stop is idle.
    fn select(&mut self, accepted: Accepted, facts: Facts) -> Outcome {
        let phase = match (accepted.action, accepted.address) {
            (_, Some(address)) => Phase::Chosen(address),
            (Action::AskCountry, _) => Phase::Country(facts),
            (Action::AskGateway, _) => Phase::Name(facts),
            _ => Phase::Idle,
        };
        self.enter(phase, accepted)
    }

    /// In auth, eap and sure: the chosen address, and whether an EAP session runs.
    fn authenticating(&self) -> Option<(Address, bool)> {
        match self.phase {
            Phase::Auth(address) | Phase::Sure(address) => Some((address, false)),
            Phase::Eap(address, _) => Some((address, true)),
            _ => None,
        }
    }
}

/// A lent text over 1,024 octets is 8, and so is a home MCC that is the visited one; a text that is not well formed is 9.
fn read_text(text: &[u8], visited: Option<u64>) -> Result<Config, Refused> {
    refuse_if(text.len() > 1024, 8)?;
    let config = Config::read(text);
    refuse_if(config.as_ref().is_some_and(|config| visited == Some(config.home.mcc)), 8)?;
    config.ok_or(Refused(9))
}
