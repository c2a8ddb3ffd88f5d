//! What makes a good event wrong: numbers at their bounds, damaged and resized octets, short buffers.

use crate::lent;
use crate::random::Random;
use crate::shape::Shape;

const SMALL: [u64; 20] = [0, 1, 2, 3, 4, 5, 6, 7, 15, 16, 61, 255, 256, 257, 999, 1000, 16383, 16384, 65535, 65536];
const LARGE: [u64; 6] = [(1 << 32) - 1, 1 << 32, (1 << 32) + 1, 1 << 63, u64::MAX - 1, u64::MAX];
const LENGTHS: [usize; 34] = [
    0, 1, 2, 3, 4, 5, 13, 14, 15, 16, 17, 18, 63, 64, 65, 67, 68, 255, 256, 271, 272, 273, 289, 1023, 1024, 1025, 1026, 2047, 2048, 2049,
    2064, 2065, 3090, 66000,
];
const ROOMS: [usize; 12] = [0, 1, 52, 63, 64, 65, 1023, 1024, 1025, 3089, 3090, 3091];

/// A number at one of the bounds.
pub fn number(random: &mut Random) -> u64 {
    if random.chance(75) {
        random.pick(&SMALL)
    } else {
        random.pick(&LARGE)
    }
}

/// The length of an answer buffer around one of the least lengths.
pub fn room(random: &mut Random) -> usize {
    random.pick(&ROOMS)
}

/// Changes one thing in an event.
pub fn flaw(mut shape: Shape, random: &mut Random) {
    let (numbers, slices) = (shape.numbers.len(), shape.slices.len());
    let places = numbers + 2 * slices + usize::from(shape.room.is_some());
    match random.index(places.max(1)) {
        place if place < numbers => *shape.numbers[place] = odd(*shape.numbers[place], random),
        place if place < numbers + 2 * slices => {
            let is_packet = shape.name == "eap";
            let octets = &mut *shape.slices[(place - numbers) / 2];
            *octets = if random.chance(75) { lent::damaged(octets, random) } else { resized(octets, random.pick(&LENGTHS)) };
            if is_packet && random.chance(60) {
                *octets = lent::with_true_length(std::mem::take(octets));
            }
        }
        _ => shape.room.into_iter().for_each(|length| *length = room(random)),
    }
}

/// A number at a bound, or one that a narrower number would take for the right one.
fn odd(old: u64, random: &mut Random) -> u64 {
    match random.below(5) {
        0 => old.wrapping_add(1),
        1 => old.wrapping_sub(1),
        2 => old.wrapping_add(random.pick(&[1 << 8, 1 << 16, 1 << 32, 1 << 63])),
        _ => number(random),
    }
}

/// The octets again and again until there are so many.
fn resized(octets: &[u8], length: usize) -> Vec<u8> {
    if octets.is_empty() {
        return vec![0; length];
    }
    octets.iter().copied().cycle().take(length).collect()
}
