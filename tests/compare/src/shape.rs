//! A call's numbers, lent octets and answer buffer, the same for every call, so that it can be changed, shrunk and shown in one way.

use reference::{Call, Event, PacketCall};

/// What may be changed in a call: its numbers and its slices in the order of the prototype, and the length of its answer buffer.
pub struct Shape<'a> {
    pub name: &'static str,
    pub numbers: Vec<&'a mut u64>,
    pub slices: Vec<&'a mut Vec<u8>>,
    pub room: Option<&'a mut usize>,
}

/// A call on the table or without one.
pub trait Shaped: Clone {
    fn shape(&mut self) -> Shape<'_>;

    fn name(&self) -> &'static str {
        self.clone().shape().name
    }

    /// The call as C would have it, without the lengths of slices.
    fn shown(&self) -> String {
        let mut call = self.clone();
        let shape = call.shape();
        let mut arguments: Vec<String> = shape.numbers.iter().map(|number| number.to_string()).collect();
        arguments.extend(shape.slices.iter().map(|octets| shown_octets(octets)));
        arguments.extend(shape.room.map(|room| format!("buffer[{room}]")));
        format!("scal_{}({})", shape.name, arguments.join(", "))
    }
}

impl Shaped for Call {
    fn shape(&mut self) -> Shape<'_> {
        match self {
            Call::Open { tenant, line } => Shape { name: "open", numbers: vec![tenant, line], slices: vec![], room: None },
            Call::Close { tenant, line } => Shape { name: "close", numbers: vec![tenant, line], slices: vec![], room: None },
            Call::List { tenant, room } => Shape { name: "list", numbers: vec![tenant], slices: vec![], room: Some(room) },
            Call::Timed { tenant, line, time, event } => {
                let mut shape = event.shape();
                let mut numbers = vec![tenant, line, time];
                numbers.append(&mut shape.numbers);
                Shape { numbers, ..shape }
            }
        }
    }
}

impl Shaped for Event {
    fn shape(&mut self) -> Shape<'_> {
        let (name, numbers, slices, room): (_, Vec<&mut u64>, Vec<&mut Vec<u8>>, _) = match self {
            Event::Start { place, mcc, registered, registered_mcc, registered_mnc, version, text, room } => {
                ("start", vec![place, mcc, registered, registered_mcc, registered_mnc, version], vec![text], Some(room))
            }
            Event::Country { replied, networks, text, room } => ("country", vec![replied], vec![networks, text], Some(room)),
            Event::Address { addresses } => ("address", vec![], vec![addresses], None),
            Event::Begin => ("begin", vec![], vec![], None),
            Event::Init => ("init", vec![], vec![], None),
            Event::Eap { packet } => ("eap", vec![], vec![packet], None),
            Event::Reply { parameters, nas, room } => ("reply", vec![], vec![parameters, nas], Some(room)),
            Event::Final { good } => ("final", vec![good], vec![], None),
            Event::Error { number } => ("error", vec![number], vec![], None),
            Event::Congestion { authenticated, timer } => ("congestion", vec![authenticated, timer], vec![], None),
            Event::GiveUp => ("give_up", vec![], vec![], None),
            Event::ChildMade { spi, session } => ("child_made", vec![spi, session], vec![], None),
            Event::ChildDeleted { spi } => ("child_deleted", vec![spi], vec![], None),
            Event::IkeDelete => ("ike_delete", vec![], vec![], None),
        };
        Shape { name, numbers, slices, room }
    }
}

impl Shaped for PacketCall {
    fn shape(&mut self) -> Shape<'_> {
        let (name, numbers, slices, room): (_, Vec<&mut u64>, Vec<&mut Vec<u8>>, _) = match self {
            PacketCall::ReadRequest { packet } => ("read_request", vec![], vec![packet], None),
            PacketCall::ReadResponse { packet } => ("read_response", vec![], vec![packet], None),
            PacketCall::WriteResponse { identifier, parameters, nas, room } => {
                ("write_response", vec![identifier], vec![parameters, nas], Some(room))
            }
            PacketCall::Parameter { parameters, at } => ("parameter", vec![at], vec![parameters], None),
            PacketCall::Timer { octet } => ("timer", vec![octet], vec![], None),
        };
        Shape { name, numbers, slices, room }
    }
}

/// Octets as a text where they are one, else in hexadecimal digits, a run of equal octets with how often it is repeated.
pub fn shown_octets(octets: &[u8]) -> String {
    let is_text = |octet: &u8| matches!(octet, b'\t' | b'\n' | b' '..=b'~');
    if octets.len() > 1 && octets.iter().all(is_text) {
        return format!("{:?}", String::from_utf8_lossy(octets));
    }
    let mut shown = String::from("<");
    for run in octets.chunk_by(|one, other| one == other) {
        match run.len() {
            count @ 5.. => shown += &format!("{:02x}*{count} ", run[0]),
            count => shown += &format!("{:02x} ", run[0]).repeat(count),
        }
    }
    shown.trim_end().to_string() + ">"
}
