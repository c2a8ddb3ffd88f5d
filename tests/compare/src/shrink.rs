//! Makes calls that lead to a deviation fewer and smaller, as long as they still lead to one.

use crate::shape::{Shape, Shaped};
use std::time::{Duration, Instant};

const LONGEST: Duration = Duration::from_secs(10);

/// The smallest calls that were found to deviate, starting with some that do.
pub fn shrunk<T: Shaped>(calls: Vec<T>, deviates: impl Fn(&[T]) -> bool) -> Vec<T> {
    let end = Instant::now() + LONGEST;
    let mut calls = calls;
    loop {
        let fewer = dropped(calls.clone(), &deviates, end);
        let smaller = lowered(fewer, &deviates, end);
        if smaller.iter().map(size).eq(calls.iter().map(size)) || Instant::now() > end {
            return smaller;
        }
        calls = smaller;
    }
}

/// Runs of calls are left out, long ones first.
fn dropped<T: Clone>(mut calls: Vec<T>, deviates: &impl Fn(&[T]) -> bool, end: Instant) -> Vec<T> {
    let mut run = calls.len().div_ceil(2);
    while run > 0 {
        let mut at = 0;
        while at < calls.len() && Instant::now() < end {
            let rest = [&calls[..at], &calls[(at + run).min(calls.len())..]].concat();
            match deviates(&rest) {
                true => calls = rest,
                false => at += run,
            }
        }
        run /= 2;
    }
    calls
}

/// Each call is put in the place of itself with less, again and again.
fn lowered<T: Shaped>(mut calls: Vec<T>, deviates: &impl Fn(&[T]) -> bool, end: Instant) -> Vec<T> {
    for place in 0..calls.len() {
        let mut candidates = simpler(&calls[place]).into_iter();
        while let Some(candidate) = candidates.next().filter(|_| Instant::now() < end) {
            let kept = std::mem::replace(&mut calls[place], candidate);
            match deviates(&calls) {
                true => candidates = simpler(&calls[place]).into_iter(),
                false => calls[place] = kept,
            }
        }
    }
    calls
}

/// A call with one number lowered, one slice shortened or a shorter answer buffer.
fn simpler<T: Shaped>(call: &T) -> Vec<T> {
    let mut whole = call.clone();
    let shape = whole.shape();
    let mut calls = Vec::new();
    for (place, octets) in shape.slices.iter().enumerate() {
        calls.extend(shorter(octets).into_iter().map(|less| changed(call, |shape| *shape.slices[place] = less)));
    }
    for (place, number) in shape.numbers.iter().enumerate() {
        calls.extend(lower(**number).into_iter().map(|less| changed(call, |shape| *shape.numbers[place] = less)));
    }
    let rooms = shape.room.map_or(vec![], |room| lower(*room as u64));
    calls.extend(rooms.into_iter().map(|less| changed(call, |shape| shape.room.iter_mut().for_each(|room| **room = less as usize))));
    calls
}

fn changed<T: Shaped>(call: &T, change: impl FnOnce(&mut Shape)) -> T {
    let mut call = call.clone();
    change(&mut call.shape());
    call
}

/// Lower numbers, the lowest first.
fn lower(number: u64) -> Vec<u64> {
    let mut lower: Vec<u64> = (0..64).map(|bits| number - (number >> bits)).filter(|other| *other < number).collect();
    lower.dedup();
    lower
}

/// The octets without a run of them: long runs first, then the lines of a text, then runs as long as the entries of lists. Of many octets
/// only long runs are left out, so that the candidates stay few.
fn shorter(octets: &[u8]) -> Vec<Vec<u8>> {
    let without = |at: usize, run: usize| [&octets[..at], &octets[(at + run).min(octets.len())..]].concat();
    let mut shorter = Vec::new();
    let mut run = octets.len();
    while run > octets.len() / 512 {
        shorter.extend((0..octets.len()).step_by(run).map(|at| without(at, run)));
        run /= 2;
    }
    if octets.len() <= 1024 {
        let ends = octets.iter().enumerate().filter(|(_, octet)| **octet == b'\n').map(|(place, _)| place + 1);
        let starts = std::iter::once(0).chain(ends.clone());
        shorter.extend(starts.zip(ends).map(|(start, end)| without(start, end - start)));
        shorter.extend([17, 4].iter().flat_map(|run| (0..octets.len()).map(|at| without(at, *run))));
    }
    shorter
}

/// The sum of a call's numbers and lengths.
fn size<T: Shaped>(call: &T) -> u128 {
    let mut call = call.clone();
    let shape = call.shape();
    let numbers: u128 = shape.numbers.iter().map(|number| u128::from(**number)).sum();
    let lengths: usize = shape.slices.iter().map(|octets| octets.len()).sum();
    numbers + lengths as u128 + shape.room.map_or(0, |room| *room as u128)
}
