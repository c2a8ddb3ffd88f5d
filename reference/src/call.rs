//! The calls and their answers, as they travel.

/// Calls on the table: numbers, lent octets, and the length of the answer buffer where the call has one.
#[derive(Clone, Debug, PartialEq, Eq)]
pub enum Call {
    Open { tenant: u64, line: u64 },
    Close { tenant: u64, line: u64 },
    List { tenant: u64, room: usize },
    Timed { tenant: u64, line: u64, time: u64, event: Event },
}

/// The events of a line; the call that brings one carries a time.
#[derive(Clone, Debug, PartialEq, Eq)]
pub enum Event {
    Start { place: u64, mcc: u64, registered: u64, registered_mcc: u64, registered_mnc: u64, version: u64, text: Vec<u8>, room: usize },
    Country { replied: u64, networks: Vec<u8>, text: Vec<u8>, room: usize },
    Address { addresses: Vec<u8> },
    Begin,
    Init,
    Eap { packet: Vec<u8> },
    Reply { parameters: Vec<u8>, nas: Vec<u8>, room: usize },
    Final { good: u64 },
    Error { number: u64 },
    Congestion { authenticated: u64, timer: u64 },
    GiveUp,
    ChildMade { spi: u64, session: u64 },
    ChildDeleted { spi: u64 },
    IkeDelete,
}

/// The refusal number or 0, the twelve numbers (all 0 for open and close), the octets of the part, and the answer buffer whole
/// (empty where there is none).
#[derive(Clone, Debug, PartialEq, Eq)]
pub struct Answer {
    pub refusal: u64,
    pub numbers: [u64; 12],
    pub part: Vec<u8>,
    pub buffer: Vec<u8>,
}

/// Calls on packets alone, without a table.
#[derive(Clone, Debug, PartialEq, Eq)]
pub enum PacketCall {
    ReadRequest { packet: Vec<u8> },
    ReadResponse { packet: Vec<u8> },
    WriteResponse { identifier: u64, parameters: Vec<u8>, nas: Vec<u8>, room: usize },
    Parameter { parameters: Vec<u8>, at: u64 },
    Timer { octet: u64 },
}

/// The refusal number or 0, the six fields, and the answer buffer whole (empty where there is none).
#[derive(Clone, Debug, PartialEq, Eq)]
pub struct PacketAnswer {
    pub refusal: u64,
    pub fields: [u64; 6],
    pub buffer: Vec<u8>,
}

impl Call {
    /// The length of the lent answer buffer and the least that it must have; both are 0 for a call without one.
    pub(crate) fn room(&self) -> (usize, usize) {
        match self {
            Call::List { room, .. } => (*room, 1024),
            Call::Timed { event: Event::Start { room, .. } | Event::Country { room, .. }, .. } => (*room, 64),
            Call::Timed { event: Event::Reply { room, .. }, .. } => (*room, 3090),
            _ => (0, 0),
        }
    }
}

/// A refusal, by its number in document 01.
pub(crate) struct Refused(pub u64);

/// Refuses the call by this number where the condition applies; calls chain these in rising order.
pub(crate) fn refuse_if(applies: bool, refusal: u64) -> Result<(), Refused> {
    (!applies).then_some(()).ok_or(Refused(refusal))
}
