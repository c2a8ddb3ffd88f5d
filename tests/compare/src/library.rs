//! The exported C calls. Only this module has unsafe code.

use crate::guard::Guarded;
use reference::{Call, Event, PacketCall};

/// What one call is lent beside the table: up to two slices that it reads, an answer buffer, and the place of its numbers.
pub struct Frame {
    pub slices: [Guarded<u8>; 2],
    pub buffer: Guarded<u8>,
    pub numbers: Guarded<u64>,
}

/// The pointers and lengths of a frame.
struct Raw {
    one: (*const u8, usize),
    two: (*const u8, usize),
    buffer: (*mut u8, usize),
    numbers: *mut u64,
}

impl Frame {
    fn lend(&mut self, numbers: usize) -> Raw {
        let [one, two] = self.slices.each_mut().map(Guarded::lend);
        let (place, count) = self.numbers.lend();
        assert_eq!(count, numbers);
        Raw { one: (one.0, one.1), two: (two.0, two.1), buffer: self.buffer.lend(), numbers: place }
    }
}

#[rustfmt::skip]
extern "C" {
    fn scal_table_length() -> u64;
    fn scal_open(table: *mut u8, length: usize, tenant: u64, line: u64) -> u64;
    fn scal_close(table: *mut u8, length: usize, tenant: u64, line: u64) -> u64;
    fn scal_list(table: *const u8, length: usize, tenant: u64, listing: *mut u8, listing_length: usize, answer: *mut u64) -> u64;
    fn scal_start(table: *mut u8, length: usize, tenant: u64, line: u64, time: u64, place: u64, mcc: u64, registered: u64,
                  registered_mcc: u64, registered_mnc: u64, version: u64, text: *const u8, text_length: usize, name: *mut u8,
                  name_length: usize, answer: *mut u64) -> u64;
    fn scal_country(table: *mut u8, length: usize, tenant: u64, line: u64, time: u64, replied: u64, networks: *const u8,
                    networks_length: usize, text: *const u8, text_length: usize, name: *mut u8, name_length: usize,
                    answer: *mut u64) -> u64;
    fn scal_address(table: *mut u8, length: usize, tenant: u64, line: u64, time: u64, addresses: *const u8, addresses_length: usize,
                    answer: *mut u64) -> u64;
    fn scal_begin(table: *mut u8, length: usize, tenant: u64, line: u64, time: u64, answer: *mut u64) -> u64;
    fn scal_init(table: *mut u8, length: usize, tenant: u64, line: u64, time: u64, answer: *mut u64) -> u64;
    fn scal_eap(table: *mut u8, length: usize, tenant: u64, line: u64, time: u64, packet: *const u8, packet_length: usize,
                answer: *mut u64) -> u64;
    fn scal_reply(table: *mut u8, length: usize, tenant: u64, line: u64, time: u64, parameters: *const u8, parameters_length: usize,
                  nas: *const u8, nas_length: usize, reply: *mut u8, reply_length: usize, answer: *mut u64) -> u64;
    fn scal_final(table: *mut u8, length: usize, tenant: u64, line: u64, time: u64, good: u64, answer: *mut u64) -> u64;
    fn scal_error(table: *mut u8, length: usize, tenant: u64, line: u64, time: u64, number: u64, answer: *mut u64) -> u64;
    fn scal_congestion(table: *mut u8, length: usize, tenant: u64, line: u64, time: u64, authenticated: u64, timer: u64,
                       answer: *mut u64) -> u64;
    fn scal_give_up(table: *mut u8, length: usize, tenant: u64, line: u64, time: u64, answer: *mut u64) -> u64;
    fn scal_child_made(table: *mut u8, length: usize, tenant: u64, line: u64, time: u64, spi: u64, session: u64,
                       answer: *mut u64) -> u64;
    fn scal_child_deleted(table: *mut u8, length: usize, tenant: u64, line: u64, time: u64, spi: u64, answer: *mut u64) -> u64;
    fn scal_ike_delete(table: *mut u8, length: usize, tenant: u64, line: u64, time: u64, answer: *mut u64) -> u64;
    fn scal_read_request(packet: *const u8, packet_length: usize, fields: *mut u64) -> u64;
    fn scal_read_response(packet: *const u8, packet_length: usize, fields: *mut u64) -> u64;
    fn scal_write_response(identifier: u64, parameters: *const u8, parameters_length: usize, nas: *const u8, nas_length: usize,
                           packet: *mut u8, packet_length: usize, fields: *mut u64) -> u64;
    fn scal_parameter(parameters: *const u8, parameters_length: usize, at: u64, fields: *mut u64) -> u64;
    fn scal_timer(octet: u64, fields: *mut u64) -> u64;
}

pub fn table_length() -> u64 {
    // SAFETY: the call takes nothing and keeps nothing.
    unsafe { scal_table_length() }
}

/// A call on the table.
pub fn table_call(call: &Call, table: &mut Guarded<u8>, frame: &mut Frame) -> u64 {
    let (octets, length) = table.lend();
    let raw = frame.lend(12);
    // SAFETY: every pointer is one into a store that lives until the call has returned, and the stores are apart.
    unsafe {
        match *call {
            Call::Open { tenant, line } => scal_open(octets, length, tenant, line),
            Call::Close { tenant, line } => scal_close(octets, length, tenant, line),
            Call::List { tenant, .. } => scal_list(octets, length, tenant, raw.buffer.0, raw.buffer.1, raw.numbers),
            Call::Timed { tenant, line, time, ref event } => timed_call((octets, length), (tenant, line, time), event, raw),
        }
    }
}

/// The pointers are as `table_call` has them; the slices are those of the event, in the order of its prototype.
#[rustfmt::skip]
unsafe fn timed_call((table, length): (*mut u8, usize), (tenant, line, time): (u64, u64, u64), event: &Event, raw: Raw) -> u64 {
    let Raw { one, two, buffer, numbers } = raw;
    match *event {
        Event::Start { place, mcc, registered, registered_mcc, registered_mnc, version, .. } =>
            scal_start(table, length, tenant, line, time, place, mcc, registered, registered_mcc, registered_mnc, version, one.0, one.1,
                       buffer.0, buffer.1, numbers),
        Event::Country { replied, .. } =>
            scal_country(table, length, tenant, line, time, replied, one.0, one.1, two.0, two.1, buffer.0, buffer.1, numbers),
        Event::Address { .. } => scal_address(table, length, tenant, line, time, one.0, one.1, numbers),
        Event::Begin => scal_begin(table, length, tenant, line, time, numbers),
        Event::Init => scal_init(table, length, tenant, line, time, numbers),
        Event::Eap { .. } => scal_eap(table, length, tenant, line, time, one.0, one.1, numbers),
        Event::Reply { .. } =>
            scal_reply(table, length, tenant, line, time, one.0, one.1, two.0, two.1, buffer.0, buffer.1, numbers),
        Event::Final { good } => scal_final(table, length, tenant, line, time, good, numbers),
        Event::Error { number } => scal_error(table, length, tenant, line, time, number, numbers),
        Event::Congestion { authenticated, timer } => scal_congestion(table, length, tenant, line, time, authenticated, timer, numbers),
        Event::GiveUp => scal_give_up(table, length, tenant, line, time, numbers),
        Event::ChildMade { spi, session } => scal_child_made(table, length, tenant, line, time, spi, session, numbers),
        Event::ChildDeleted { spi } => scal_child_deleted(table, length, tenant, line, time, spi, numbers),
        Event::IkeDelete => scal_ike_delete(table, length, tenant, line, time, numbers),
    }
}

/// A call without a table.
pub fn packet_call(call: &PacketCall, frame: &mut Frame) -> u64 {
    let Raw { one, two, buffer, numbers } = frame.lend(6);
    // SAFETY: as in `table_call`.
    unsafe {
        match *call {
            PacketCall::ReadRequest { .. } => scal_read_request(one.0, one.1, numbers),
            PacketCall::ReadResponse { .. } => scal_read_response(one.0, one.1, numbers),
            PacketCall::WriteResponse { identifier, .. } => {
                scal_write_response(identifier, one.0, one.1, two.0, two.1, buffer.0, buffer.1, numbers)
            }
            PacketCall::Parameter { at, .. } => scal_parameter(one.0, one.1, at, numbers),
            PacketCall::Timer { octet } => scal_timer(octet, numbers),
        }
    }
}
