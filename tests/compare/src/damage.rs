//! Damaged tables: octets changed, parts copied, wrong lengths. One that is no longer sound gets every call (judge.rs).

use crate::drive::Driver;
use crate::history::{History, Run, Told};
use crate::judge::{judged, Base};
use crate::layout::{self, Line, Phase, RECORD, RECORDS, TABLE};
use crate::phases::{children, holds, stages, SIX, TIME};
use crate::random::Random;

/// One line; full tables with one child a line, with as much as a line may have, and with lines in every phase.
fn bases() -> [Base; 4] {
    let stages = stages();
    let pair = |record: usize| (record as u64 * 7 % 64 / 4, record as u64 * 7 % 4);
    let live = |held, made| Line { time: TIME, phase: Phase::Live(SIX), holds: holds(held), children: children(made) };
    let full = |line: &dyn Fn(usize) -> Line| {
        let lines: Vec<_> = (0..RECORDS).map(|record| (pair(record), line(record))).collect();
        Base::of(&layout::table(&lines))
    };
    let one = Base::of(&layout::table(&[((3, 2), live(2, 2))]));
    [one, full(&|_| live(0, 1)), full(&|_| live(7, 8)), full(&|record| stages[record * 7 % stages.len()].clone())]
}

/// Each octet changed, and wrong lengths; how many tables they were of.
pub fn systematic(run: &mut Run) -> Result<u64, String> {
    let random = &mut Random::of(run.seed, 5);
    let bases = bases();
    for base in &bases {
        judged(base, &base.octets, usize::MAX, random, run)?;
        lengths(base, random, run)?;
        octets(base, random, run)?;
    }
    let [_, _, crowded, in_every_phase] = &bases;
    record(crowded, random, run)?;
    record(in_every_phase, random, run)?;
    Ok(bases.len() as u64)
}

/// A few other values for each octet.
fn octets(base: &Base, random: &mut Random, run: &mut Run) -> Told {
    for place in 0..TABLE {
        let old = base.octets[place];
        for value in [old.wrapping_add(1), old.wrapping_sub(1), random.draw() as u8] {
            changed(base, place, value, random, run)?;
        }
    }
    Ok(())
}

/// Every value for each octet of one record.
fn record(base: &Base, random: &mut Random, run: &mut Run) -> Told {
    let start = RECORD * random.index(RECORDS);
    for place in start..start + RECORD {
        (0..=255).try_for_each(|value| changed(base, place, value, random, run))?;
    }
    Ok(())
}

/// One octet changed; a few of the tables that are still sound get many calls.
fn changed(base: &Base, place: usize, value: u8, random: &mut Random, run: &mut Run) -> Told {
    let mut table = base.octets.clone();
    table[place] = value;
    let count = if random.chance(2) { usize::MAX } else { 1 };
    judged(base, &table, count, random, run)
}

/// Every length around the right one and around none, and lengths in steps up to twice the right one.
fn lengths(base: &Base, random: &mut Random, run: &mut Run) -> Told {
    let around = (0..300).chain(TABLE - 300..TABLE + 300);
    for length in around.chain((0..=2 * TABLE).step_by(61)).chain((0..=2 * TABLE).step_by(RECORD)) {
        for rest in [&vec![0; TABLE], &base.octets] {
            let table = [base.octets.clone(), rest.clone()].concat()[..length].to_vec();
            judged(base, &table, 1, random, run)?;
        }
    }
    let empty = vec![0; 2 * TABLE];
    (0..200).try_for_each(|length| judged(base, &empty[..length], 1, random, run))
}

/// A random table that calls lead to, damaged two hundred times.
pub fn one(index: u64, run: &mut Run) -> Told {
    let random = &mut Random::of(run.seed, index);
    let driver = Driver::new(random);
    let mut history = History::new(random.draw());
    for call in driver.opens() {
        history.call(call, run)?;
    }
    for _ in 0..random.below(300) {
        history.call(driver.call(history.both.table(), random), run)?;
    }
    let base = Base::of(history.both.table());
    for _ in 0..200 {
        let mut table = base.octets.clone();
        (0..1 + random.index(3)).for_each(|_| damage(&mut table, random));
        judged(&base, &table, 1, random, run)?;
    }
    Ok(())
}

/// Changes an octet, or copies a record, a hold, a child, an address or a time where it makes something stand twice or too long.
fn damage(table: &mut [u8], random: &mut Random) {
    let at = RECORD * random.index(RECORDS);
    let other = RECORD * random.index(RECORDS);
    let hold = |at: usize, random: &mut Random| at + 27 + 22 * random.index(8);
    let child = |at: usize, random: &mut Random| at + 203 + 5 * random.index(8);
    match random.below(10) {
        0 => table.copy_within(other..other + RECORD, at),
        1 => table.copy_within(other + 1..other + RECORD, at + 1),
        2 => table[at] = table[other],
        3 => {
            let from = hold(at, random);
            table.copy_within(from..from + random.pick(&[17, 22]), hold(at, random));
        }
        4 => {
            let from = child(at, random);
            table.copy_within(from..from + random.pick(&[4, 5]), child(at, random));
        }
        5 => {
            let from = hold(at, random);
            table.copy_within(from..from + 17, at + 6);
        }
        6 => {
            let end = hold(at, random) + 18;
            table.copy_within(end..end + 4, at + 1);
            table[at + 4] = table[at + 4].wrapping_add(random.pick(&[0, 0, 1, 255]));
        }
        7 => {
            let count = at + random.pick(&[25, 26]);
            table[count] = table[count].wrapping_add(random.pick(&[1, 255]));
        }
        8 => table[at + 5] = random.below(10) as u8,
        _ => table[random.index(TABLE)] = random.draw() as u8,
    }
}
