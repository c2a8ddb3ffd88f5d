//! The library's side of a comparison: a table that is lent with each call, and what must hold of every call whatever it answers.

use crate::guard::Guarded;
use crate::library::{self, Frame};
use crate::random::Random;
use crate::shape::{shown_octets, Shaped};
use reference::{Answer, Call, PacketAnswer, PacketCall};

#[derive(Clone)]
pub struct Library {
    table: Guarded<u8>,
    noise: Random,
}

impl Library {
    pub fn with(table: &[u8], seed: u64) -> Library {
        let mut noise = Random::of(seed, 0);
        Library { table: Guarded::new(table, &mut noise), noise }
    }

    pub fn empty(seed: u64) -> Library {
        Library::with(&vec![0; library::table_length() as usize], seed)
    }

    pub fn table(&self) -> &[u8] {
        self.table.lent()
    }

    /// The answer, or what the call did that no call may do.
    pub fn call(&mut self, call: &Call) -> Result<Answer, String> {
        let mut frame = framed(call, 12, &mut self.noise);
        let refusal = library::table_call(call, &mut self.table, &mut frame);
        let numbered = !matches!(call, Call::Open { .. } | Call::Close { .. });
        if !self.table.margins_stand() {
            return Err("octets beside the table were changed".into());
        }
        if (refusal != 0 || matches!(call, Call::List { .. })) && !self.table.untouched() {
            return Err(format!("the table was changed by a call that returned {refusal}"));
        }
        let numbers = numbers_of(&frame, refusal, numbered)?;
        let part = part_of(call, &numbers, &frame)?;
        let buffer = buffer_of(&frame, numbers[11])?;
        Ok(Answer { refusal, numbers, part, buffer })
    }
}

/// A call without a table: the answer, or what the call did that no call may do.
pub fn packet_call(call: &PacketCall, noise: &mut Random) -> Result<PacketAnswer, String> {
    let mut frame = framed(call, 6, noise);
    let refusal = library::packet_call(call, &mut frame);
    let fields: [u64; 6] = numbers_of(&frame, refusal, true)?;
    let buffer = buffer_of(&frame, fields[4].saturating_add(fields[5]))?;
    Ok(PacketAnswer { refusal, fields, buffer })
}

/// What the call is lent; its buffer and its numbers hold garbage.
fn framed(call: &impl Shaped, numbers: usize, noise: &mut Random) -> Frame {
    let mut call = call.clone();
    let shape = call.shape();
    let slice = |place: usize| shape.slices.get(place).map_or(&[][..], |octets| octets.as_slice());
    let garbage = noise.octets(shape.room.as_ref().map_or(0, |room| **room));
    let numbers: Vec<u64> = (0..numbers).map(|_| noise.draw()).collect();
    Frame {
        slices: [Guarded::new(slice(0), noise), Guarded::new(slice(1), noise)],
        buffer: Guarded::new(&garbage, noise),
        numbers: Guarded::new(&numbers, noise),
    }
}

/// The numbers of the answer, zeros where the call has none. What is lent for reading stands, and so do all margins.
fn numbers_of<const N: usize>(frame: &Frame, refusal: u64, numbered: bool) -> Result<[u64; N], String> {
    if !frame.slices.iter().all(Guarded::untouched) {
        return Err("lent octets, or octets beside them, were changed".into());
    }
    if !frame.buffer.margins_stand() || !frame.numbers.margins_stand() {
        return Err("octets beside the answer or the answer buffer were changed".into());
    }
    if !numbered {
        return Ok([0; N]);
    }
    let numbers: [u64; N] = frame.numbers.lent().try_into().expect("the frame has as many numbers");
    let zeros = numbers == [0; N] && frame.buffer.lent().iter().all(|&octet| octet == 0);
    match refusal != 0 && !zeros {
        true => Err(format!("the refusal {refusal} left numbers or octets: {numbers:?}, {}", shown_octets(frame.buffer.lent()))),
        false => Ok(numbers),
    }
}

/// The octets that the numbers of an answer name, in the slice that they name.
fn part_of(call: &Call, numbers: &[u64; 12], frame: &Frame) -> Result<Vec<u8>, String> {
    let [_, _, _, part_in, start, length, ..] = *numbers;
    let slice = match (part_in, call.name()) {
        (0, _) => &[][..],
        (1, "start") => frame.slices[0].lent(),
        (1, "country") => frame.slices[1].lent(),
        (2, "start" | "country") => frame.buffer.lent(),
        (3, "eap") => frame.slices[0].lent(),
        _ => return Err(format!("the call has no slice {part_in}")),
    };
    let within = start.checked_add(length).is_some_and(|end| end <= slice.len() as u64);
    let outside = || format!("the part from {start} of {length} octets is not within its slice of {}", slice.len());
    within.then(|| slice[start as usize..(start + length) as usize].to_vec()).ok_or_else(outside)
}

/// The answer buffer, zeros behind what is written.
fn buffer_of(frame: &Frame, written: u64) -> Result<Vec<u8>, String> {
    let buffer = frame.buffer.lent();
    let clean = |rest: &[u8]| rest.iter().all(|&octet| octet == 0);
    match buffer.is_empty() || buffer.get(written as usize..).is_some_and(clean) {
        true => Ok(buffer.to_vec()),
        false => Err(format!("{written} octets are written and the buffer is {}", shown_octets(buffer))),
    }
}
