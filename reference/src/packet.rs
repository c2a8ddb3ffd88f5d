//! EAP-5G packets, and the packet calls without a table.

use crate::answer::buffer;
use crate::call::{refuse_if, PacketAnswer, PacketCall, Refused};
use crate::hold::Timer;

const REQUEST: u8 = 1;
const RESPONSE: u8 = 2;
const SUCCESS: u8 = 3;
const START: u8 = 1;
const NAS: u8 = 2;

/// Where the first field after the header and its length of two octets starts: NAS in a request, AN-parameters in a response.
pub(crate) const FIRST_FIELD: usize = 16;

/// A packet that the EAP step takes.
pub(crate) enum Request<'a> {
    Start { identifier: u8 },
    Nas { identifier: u8, nas: &'a [u8] },
    Success { identifier: u8 },
}

/// Reads a header into code, identifier, message and what follows: type 254, vendor 10415, vendor type 3, the lent length, any spare.
fn read_header(packet: &[u8]) -> Option<(u8, u8, u8, &[u8])> {
    let [code, identifier, high, low, 254, 0, 0x28, 0xAF, 0, 0, 0, 3, message, _spare, rest @ ..] = packet else { return None };
    let length = u16::from_be_bytes([*high, *low]);
    (usize::from(length) == packet.len()).then_some((*code, *identifier, *message, rest))
}

/// Reads a field with its length of two octets before it, and gives what follows.
fn read_field(octets: &[u8]) -> Option<(&[u8], &[u8])> {
    let [high, low, rest @ ..] = octets else { return None };
    rest.split_at_checked(u16::from_be_bytes([*high, *low]).into())
}

/// Reads a request: Success has exactly four octets, Start and NAS may have extensions after their fields, all else is ill-formed.
pub(crate) fn read_request(packet: &[u8]) -> Option<Request<'_>> {
    if let [SUCCESS, identifier, 0, 4] = *packet {
        return Some(Request::Success { identifier });
    }
    match read_header(packet)? {
        (REQUEST, identifier, START, _extensions) => Some(Request::Start { identifier }),
        (REQUEST, identifier, NAS, rest) => {
            let (nas, _extensions) = read_field(rest)?;
            fields_fit(&[], nas).then_some(Request::Nas { identifier, nas })
        }
        _ => None,
    }
}

/// Reads a NAS response into its fields for the caller; extensions may follow the NAS.
fn read_response(packet: &[u8]) -> Option<[u64; 6]> {
    let (RESPONSE, identifier, NAS, rest) = read_header(packet)? else { return None };
    let (parameters, rest) = read_field(rest)?;
    let (nas, _extensions) = read_field(rest)?;
    (fields_fit(parameters, nas) && ends_exactly(parameters)).then(|| places(identifier, parameters, nas))
}

/// Writes a NAS response with spare 0 and no extensions, whose fields were tested before and so fit their lengths of two octets.
pub(crate) fn write_response(identifier: u8, parameters: &[u8], nas: &[u8]) -> Vec<u8> {
    let two_octets = |length: usize| (length as u16).to_be_bytes();
    let mut packet = vec![RESPONSE, identifier];
    packet.extend(two_octets(FIRST_FIELD + parameters.len() + 2 + nas.len()));
    packet.extend([254, 0, 0x28, 0xAF, 0, 0, 0, 3, NAS, 0]);
    packet.extend(two_octets(parameters.len()));
    packet.extend(parameters);
    packet.extend(two_octets(nas.len()));
    packet.extend(nas);
    packet
}

/// NAS has 1 to 2,048 octets, AN-parameters have at most 1,024 in all.
pub(crate) fn fields_fit(parameters: &[u8], nas: &[u8]) -> bool {
    parameters.len() <= 1024 && (1..=2048).contains(&nas.len())
}

/// Reads the AN-parameter at the front into type and value, and gives what follows.
fn read_parameter(octets: &[u8]) -> Option<(u8, &[u8], &[u8])> {
    let [kind, length, rest @ ..] = octets else { return None };
    rest.split_at_checked(usize::from(*length)).map(|(value, rest)| (*kind, value, rest))
}

/// The last AN-parameter of a block ends where the block does.
pub(crate) fn ends_exactly(mut block: &[u8]) -> bool {
    while let Some((_, _, rest)) = read_parameter(block) {
        block = rest;
    }
    block.is_empty()
}

/// How a packet call ends: the six fields and the written octets, or a refusal.
type Outcome = Result<([u64; 6], Vec<u8>), Refused>;

/// Makes one packet call.
pub fn packet_call(call: &PacketCall) -> PacketAnswer {
    let (room, outcome) = match call {
        PacketCall::ReadRequest { packet } => (0, request_fields(packet)),
        PacketCall::ReadResponse { packet } => (0, read_response(packet).map(|fields| (fields, Vec::new())).ok_or(Refused(9))),
        PacketCall::WriteResponse { identifier, parameters, nas, room } => (*room, written_response(*identifier, parameters, nas, *room)),
        PacketCall::Parameter { parameters, at } => (0, parameter_fields(parameters, *at)),
        PacketCall::Timer { octet } => (0, timer_fields(*octet)),
    };
    let (refusal, fields, written) = match outcome {
        Ok((fields, written)) => (0, fields, written),
        Err(Refused(refusal)) => (refusal, [0; 6], Vec::new()),
    };
    PacketAnswer { refusal, fields, buffer: buffer(written, room) }
}

/// A request gives its kind and identifier, a NAS request also where its NAS lies.
fn request_fields(packet: &[u8]) -> Outcome {
    let fields = match read_request(packet).ok_or(Refused(9))? {
        Request::Start { identifier } => [1, identifier.into(), 0, 0, 0, 0],
        Request::Nas { identifier, nas } => [2, identifier.into(), 0, 0, FIRST_FIELD as u64, nas.len() as u64],
        Request::Success { identifier } => [3, identifier.into(), 0, 0, 0, 0],
    };
    Ok((fields, Vec::new()))
}

/// The fields of a response: its identifier, and where AN-parameters and NAS lie, which follows from their lengths.
fn places(identifier: u8, parameters: &[u8], nas: &[u8]) -> [u64; 6] {
    let nas_start = FIRST_FIELD + parameters.len() + 2;
    [2, identifier.into(), FIRST_FIELD as u64, parameters.len() as u64, nas_start as u64, nas.len() as u64]
}

/// A written response needs room for the longest one; fields out of range are 8, AN-parameters that do not end exactly are 9.
fn written_response(identifier: u64, parameters: &[u8], nas: &[u8], room: usize) -> Outcome {
    refuse_if(room < 3090, 3)?;
    let identifier = u8::try_from(identifier).or(Err(Refused(8)))?;
    refuse_if(!fields_fit(parameters, nas), 8)?;
    refuse_if(!ends_exactly(parameters), 9)?;
    Ok((places(identifier, parameters, nas), write_response(identifier, parameters, nas)))
}

/// A step of the walk looks only at the parameter at the given place, and answers all zeros at the end of the block.
fn parameter_fields(parameters: &[u8], at: u64) -> Outcome {
    refuse_if(parameters.len() > 1024, 8)?;
    let ahead = usize::try_from(at).ok().and_then(|place| parameters.get(place..)).ok_or(Refused(8))?;
    if ahead.is_empty() {
        return Ok(([0; 6], Vec::new()));
    }
    let (kind, value, rest) = read_parameter(ahead).ok_or(Refused(9))?;
    let next = parameters.len() - rest.len();
    Ok(([1, kind.into(), (next - value.len()) as u64, value.len() as u64, next as u64, 0], Vec::new()))
}

/// A timer octet sets no hold, a hold of some seconds, or one without end.
fn timer_fields(number: u64) -> Outcome {
    let (kind, seconds) = match Timer::read(u8::try_from(number).or(Err(Refused(8)))?) {
        Timer::NoHold => (0, 0),
        Timer::Seconds(seconds) => (1, seconds),
        Timer::Deactivated => (2, 0),
    };
    Ok(([kind, seconds, 0, 0, 0, 0], Vec::new()))
}
