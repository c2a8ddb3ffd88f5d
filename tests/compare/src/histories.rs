//! Random histories on the table, and random calls without one.

use crate::draw::any_packet;
use crate::drive::Driver;
use crate::history::{packet, History, Run, Told};
use crate::lent;
use crate::random::Random;
use reference::{Call, PacketCall};

/// One history: opens, some hundred calls, and a listing of each of its tenants.
pub fn one(index: u64, run: &mut Run) -> Told {
    let random = &mut Random::of(run.seed, index);
    let driver = Driver::new(random);
    let mut history = History::new(random.draw());
    for call in driver.opens() {
        history.call(call, run)?;
    }
    for _ in 0..100 + random.below(400) {
        history.call(driver.call(history.both.table(), random), run)?;
    }
    driver.tenants().into_iter().try_for_each(|tenant| history.call(Call::List { tenant, room: 1024 }, run).map(drop))
}

/// Some calls without a table.
pub fn packets(index: u64, run: &mut Run) -> Told {
    let random = &mut Random::of(run.seed, index);
    for _ in 0..100 {
        packet(packet_call(random), run)?;
    }
    Ok(())
}

fn packet_call(random: &mut Random) -> PacketCall {
    let octets = match random.chance(50) {
        true => any_packet(random),
        false => lent::with_true_length(lent::damaged(&any_packet(random), random)),
    };
    let length = random.pick(&[0, 2, 3, 20, 300, 1024, 1025]);
    let whole = lent::parameters(length, random);
    let parameters = if random.chance(60) { whole } else { lent::damaged(&whole, random) };
    match random.below(5) {
        0 => PacketCall::ReadRequest { packet: octets },
        1 => PacketCall::ReadResponse { packet: octets },
        2 => {
            let nas = random.pick(&[0, 1, 1, 100, 2048, 2049]);
            let identifier = random.pick(&[0, 7, 255, 255, 256, 263, u64::MAX]);
            PacketCall::WriteResponse {
                identifier,
                parameters,
                nas: random.octets(nas),
                room: random.pick(&[3089, 3090, 3090, 3090, 4000]),
            }
        }
        3 => PacketCall::Parameter { at: random.below(parameters.len() as u64 + 3), parameters },
        _ => PacketCall::Timer { octet: random.below(260) },
    }
}
