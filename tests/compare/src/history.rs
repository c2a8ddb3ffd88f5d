//! Histories of calls, from the empty table on, whose deviations are shrunk and told.

use crate::both::{packet_call, shown, Both};
use crate::counts::Counts;
use crate::layout::{self, Line};
use crate::random::Random;
use crate::shape::Shaped;
use crate::shrink::shrunk;
use reference::{Answer, Call, PacketAnswer, PacketCall};

/// Nothing, or the deviation that was found.
pub type Told = Result<(), String>;

/// What a run goes by and what it has met.
pub struct Run {
    pub seed: u64,
    pub counts: Counts,
}

/// Calls on a table that was empty at first, and both sides after them.
#[derive(Clone)]
pub struct History {
    seed: u64,
    calls: Vec<Call>,
    pub both: Both,
}

impl History {
    pub fn new(seed: u64) -> History {
        History { seed, calls: Vec::new(), both: Both::empty(seed) }
    }

    /// Makes one call more. A deviation is shrunk and told.
    pub fn call(&mut self, call: Call, run: &mut Run) -> Result<Answer, String> {
        let before = match call {
            Call::Timed { tenant, line, .. } => self.both.line((tenant, line)),
            _ => None,
        };
        self.calls.push(call);
        let call = &self.calls[self.calls.len() - 1];
        let answer = self.both.call(call).map_err(|what| told(&self.calls, self.seed, &what))?;
        let after: Vec<Line> = layout::lines(self.both.table()).into_iter().flatten().map(|(_, line)| line).collect();
        run.counts.answered(call, &answer, before.as_ref(), &after);
        Ok(answer)
    }

    /// Makes one call on a copy, so that the next starts where this one did.
    pub fn tried(&self, call: Call, run: &mut Run) -> Result<Answer, String> {
        self.clone().call(call, run)
    }
}

/// The deviation that calls lead to on a table that was empty at first, if they do.
fn deviation(calls: &[Call], seed: u64) -> Option<String> {
    let mut both = Both::empty(seed);
    calls.iter().find_map(|call| both.call(call).err())
}

/// The shrunk calls with what both sides say to each; what was seen first is told where it does not come again.
fn told(calls: &[Call], seed: u64, what: &str) -> String {
    let calls = shrunk(calls.to_vec(), |calls| deviation(calls, seed).is_some());
    let mut both = Both::empty(seed);
    let mut told = format!("deviation after {} calls on the empty table:\n", calls.len());
    for call in &calls {
        let said = both.call(call).map_or_else(|what| what, |answer| shown(&answer));
        told += &format!("  {}\n{}", call.shown(), indented(&said));
    }
    match deviation(&calls, seed) {
        Some(_) => told,
        None => told + &seen(None, what),
    }
}

/// What is seen again of a deviation, or what was seen first where nothing is.
pub fn seen(again: Option<String>, first: &str) -> String {
    match again {
        Some(what) => indented(&what),
        None => "  not seen again:\n".to_string() + &indented(first),
    }
}

/// A text of some lines below what it is about.
fn indented(text: &str) -> String {
    text.lines().map(|line| format!("      {line}\n")).collect()
}

/// Makes a call without a table on both sides. A response that was written is read back with the same fields.
pub fn packet(call: PacketCall, run: &mut Run) -> Result<PacketAnswer, String> {
    let noise = Random::of(run.seed, run.counts.calls);
    let answer = packet_call(&call, noise.clone()).map_err(|what| packet_told(call.clone(), noise, &what))?;
    run.counts.returned(call.name(), answer.refusal);
    if let (PacketCall::WriteResponse { .. }, 0) = (&call, answer.refusal) {
        let written = answer.buffer[..(answer.fields[4] + answer.fields[5]) as usize].to_vec();
        if packet(PacketCall::ReadResponse { packet: written }, run)?.fields != answer.fields {
            return Err(format!("deviation: a response is not read as it was written:\n  {}\n", call.shown()));
        }
    }
    Ok(answer)
}

fn packet_told(call: PacketCall, noise: Random, what: &str) -> String {
    let calls = shrunk(vec![call], |calls| calls.iter().any(|call| packet_call(call, noise.clone()).is_err()));
    let again = packet_call(&calls[0], noise).err();
    format!("deviation of a call without a table:\n  {}\n{}", calls[0].shown(), seen(again, what))
}
