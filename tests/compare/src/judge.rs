//! What a table asks of every call: an unsound one refuses by 1 and stays as it was, a sound one has the lines that docs/TABLE.md gives it.

use crate::both::{shown, Both};
use crate::history::{seen, Run, Told};
use crate::layout::{self, Line, Pair, Phase, RECORD, TABLE};
use crate::marks;
use crate::model;
use crate::phases::{onward, samples};
use crate::random::Random;
use crate::shape::{shown_octets, Shaped};
use crate::side::Library;
use reference::{Call, Table};
use std::collections::BTreeSet;

/// A sound table with its lines.
pub struct Base {
    pub octets: Vec<u8>,
    pub lines: Vec<(Pair, Line)>,
}

impl Base {
    /// The table where it is sound, else the empty one.
    pub fn of(table: &[u8]) -> Base {
        match layout::lines(table) {
            Some(lines) => Base { octets: table.to_vec(), lines },
            None => Base { octets: vec![0; TABLE], lines: vec![] },
        }
    }
}

/// Makes calls, each on a copy of a table that was made of the base, and sees that they do what the table asks for: so many calls where it
/// is sound, else one call of every name.
pub fn judged(base: &Base, table: &[u8], count: usize, random: &mut Random, run: &mut Run) -> Told {
    let lines = layout::lines(table);
    let model = lines.as_deref().map(model::with);
    let mut calls = calls(base, lines.as_deref().unwrap_or_default(), random);
    if model.is_some() {
        calls.truncate(count);
        run.counts.marked(marks::SOUND);
    } else {
        one_of_each(&mut calls);
        run.counts.marked(marks::UNSOUND);
    }
    for call in calls {
        let seed = run.seed ^ run.counts.calls;
        let refusal = judge(table, model.as_ref(), &call, seed).map_err(|what| told(table.to_vec(), &call, seed, &what))?;
        run.counts.returned(call.name(), refusal);
    }
    Ok(())
}

/// Calls of every name, on a line that the base does not have where there is one, else on any line of the base, else on any pair.
fn calls(base: &Base, lines: &[(Pair, Line)], random: &mut Random) -> Vec<Call> {
    let new = lines.iter().find(|line| !base.lines.contains(line)).cloned();
    let (other, out) = (random.below(18), random.below(6));
    let opened = Line { time: 0, phase: Phase::Idle, holds: vec![], children: vec![] };
    let known = new.or_else(|| (!base.lines.is_empty()).then(|| random.pick(&base.lines)));
    let ((tenant, line), content) = known.unwrap_or(((other, out), opened));
    let time = if random.chance(80) { content.time } else { random.draw() };
    let timed = |event| Call::Timed { tenant, line, time, event };
    let mut calls = vec![Call::Open { tenant, line }, Call::Close { tenant, line }, Call::List { tenant, room: 1024 }];
    calls.extend([Call::Open { tenant: other, line: out }, Call::List { tenant: other, room: 1024 }]);
    calls.extend(samples(&content).into_iter().map(timed));
    random.shuffle(&mut calls);
    if random.chance(50) {
        calls.insert(0, timed(onward(&content)));
    }
    calls
}

/// Keeps the first call of each name.
fn one_of_each(calls: &mut Vec<Call>) {
    let mut kept = BTreeSet::new();
    calls.retain(|call| kept.insert(call.name()));
}

/// The refusal of a call on a table, or what is wrong with it; a sound table has a model with its lines.
fn judge(table: &[u8], model: Option<&Table>, call: &Call, seed: u64) -> Result<u64, String> {
    if let Some(model) = model {
        return Both::with(table, model.clone(), seed).call(call).map(|answer| answer.refusal);
    }
    let answer = Library::with(table, seed).call(call)?;
    match answer.refusal {
        1 => Ok(1),
        _ => Err(format!("{} where 1 was to be returned", shown(&answer))),
    }
}

/// What is wrong with a call on a table.
fn wrong(table: &[u8], call: &Call, seed: u64) -> Option<String> {
    let model = layout::lines(table).as_deref().map(model::with);
    judge(table, model.as_ref(), call, seed).err()
}

/// Records and then octets become zeros as long as the call still goes wrong.
fn told(mut table: Vec<u8>, call: &Call, seed: u64, what: &str) -> String {
    let records = (0..table.len()).step_by(RECORD).map(|at| (at, RECORD));
    let octets = (0..table.len()).map(|at| (at, 1));
    for (at, count) in records.chain(octets).collect::<Vec<_>>() {
        let mut changed = table.clone();
        changed.iter_mut().skip(at).take(count).for_each(|octet| *octet = 0);
        if changed != table && wrong(&changed, call, seed).is_some() {
            table = changed;
        }
    }
    let kind = if layout::lines(&table).is_some() { "a sound" } else { "an unsound" };
    let mut told = format!("deviation on {kind} table of {} octets, with these records and zeros:\n", table.len());
    for (record, octets) in table.chunks(RECORD).enumerate().filter(|(_, octets)| octets.iter().any(|&octet| octet != 0)) {
        told += &format!("  record {record}: {}\n", shown_octets(octets));
    }
    told + &format!("  {}\n{}", call.shown(), seen(wrong(&table, call, seed), what))
}
