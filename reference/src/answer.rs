//! What an accepted call says, and how that is put into numbers and buffers.

use crate::call::{Answer, Refused};
use crate::config::Address;

/// What the caller is to do; the discriminant is the number that travels.
#[derive(Clone, Copy, Default)]
pub(crate) enum Action {
    #[default]
    Nothing = 0,
    Stop = 1,
    AskCountry = 2,
    AskGateway = 3,
    UseAddress = 4,
    SendInit = 5,
    SendAuthRequest = 6,
    AskForNas = 7,
    HandNasUp = 8,
    SendResponse = 9,
    SendAuth = 10,
    GoLive = 11,
    Release = 12,
    HandErrorUp = 13,
}

/// Which of the lent slices holds the part, or nothing; the discriminant is the number that travels.
#[derive(Clone, Copy, Default)]
pub(crate) enum Holder {
    #[default]
    Nothing = 0,
    Text = 1,
    NameBuffer = 2,
    Packet = 3,
}

/// What an accepted call says; what its answer does not have stays at nothing.
#[derive(Default)]
pub(crate) struct Accepted {
    pub action: Action,
    pub stop: u64,
    pub passed: usize,
    pub part_is_in: Holder,
    pub part_start: usize,
    pub part: Vec<u8>,
    pub address: Option<Address>,
    pub eap_ended: bool,
    pub error: u64,
    pub written: Vec<u8>,
}

/// How a call on the table ends: accepted, or refused by a number.
pub(crate) type Outcome = Result<Accepted, Refused>;

impl From<Action> for Accepted {
    fn from(action: Action) -> Accepted {
        Accepted { action, ..Accepted::default() }
    }
}

/// The answer of a call, the twelve numbers in the order in which they travel; a refused call leaves zeros but for its number.
pub(crate) fn answer(outcome: Outcome, room: usize) -> Answer {
    let (refusal, said) = match outcome {
        Ok(accepted) => (0, accepted),
        Err(Refused(refusal)) => (refusal, Accepted::default()),
    };
    let (version, high, low) = said.address.map_or((0, 0, 0), Address::numbers);
    let (action, part_is_in, eap_ended) = (said.action as u64, said.part_is_in as u64, u64::from(said.eap_ended));
    let [passed, start, length, written] = [said.passed, said.part_start, said.part.len(), said.written.len()].map(|count| count as u64);
    let numbers = [action, said.stop, passed, part_is_in, start, length, version, high, low, eap_ended, said.error, written];
    Answer { refusal, numbers, part: said.part, buffer: buffer(said.written, room) }
}

/// The answer buffer whole: the written octets, then zeros.
pub(crate) fn buffer(mut written: Vec<u8>, room: usize) -> Vec<u8> {
    written.resize(room, 0);
    written
}
