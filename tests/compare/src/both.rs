//! The library and the model side by side: every call is made on both, and their answers and states are compared.

use crate::layout::{self, Line, Pair, RECORD};
use crate::model;
use crate::random::Random;
use crate::shape::shown_octets;
use crate::side::{self, Library};
use reference::{Answer, Call, PacketAnswer, PacketCall, Table};
use std::panic::{catch_unwind, AssertUnwindSafe};

#[derive(Clone)]
pub struct Both {
    library: Library,
    model: Table,
}

impl Both {
    pub fn empty(seed: u64) -> Both {
        Both { library: Library::empty(seed), model: Table::default() }
    }

    /// A table and a model that should be in the same state.
    pub fn with(table: &[u8], model: Table, seed: u64) -> Both {
        Both { library: Library::with(table, seed), model }
    }

    pub fn table(&self) -> &[u8] {
        self.library.table()
    }

    /// The line of a pair as the table has it.
    pub fn line(&self, pair: Pair) -> Option<Line> {
        layout::line_at(self.table(), pair)
    }

    /// The answer of both, or in what they differ.
    pub fn call(&mut self, call: &Call) -> Result<Answer, String> {
        let before = self.table().to_vec();
        let answer = self.library.call(call)?;
        let model = catch_unwind(AssertUnwindSafe(|| self.model.call(call))).map_err(|_| "the model panicked")?;
        if answer != model {
            return Err(format!("library: {}\nmodel:   {}", shown(&answer), shown(&model)));
        }
        self.same_lines()?;
        only_own_record(call, &before, self.table())?;
        lowest_is_taken(call, &answer, &before, self.table())?;
        Ok(answer)
    }

    /// The table is sound and has the lines of the model.
    fn same_lines(&self) -> Result<(), String> {
        let mut library = layout::lines(self.table()).ok_or("the table is no longer sound")?;
        library.sort_by_key(|(pair, _)| *pair);
        let model = model::lines(&self.model);
        if let Some((one, other)) = library.iter().zip(&model).find(|(one, other)| one != other) {
            return Err(format!("library has {one:?}\nmodel has   {other:?}"));
        }
        match library.len() == model.len() {
            true => Ok(()),
            false => Err(format!("library has {} lines, model has {}", library.len(), model.len())),
        }
    }
}

/// A call changes at most one record, that of its pair.
fn only_own_record(call: &Call, before: &[u8], after: &[u8]) -> Result<(), String> {
    let own = match *call {
        Call::Open { tenant, line } | Call::Close { tenant, line } | Call::Timed { tenant, line, .. } => {
            1 + 4 * tenant.min(64) + line.min(64)
        }
        Call::List { .. } => 0,
    };
    let changed: Vec<_> = records(before, after).filter(|(one, other)| one != other).collect();
    let is_own = |octet: u8| octet == 0 || u64::from(octet) == own;
    match changed.len() <= 1 && changed.iter().all(|(one, other)| is_own(one[0]) && is_own(other[0])) {
        true => Ok(()),
        false => Err("a record of another pair was changed".into()),
    }
}

/// An open that is accepted takes the free record of the lowest number.
fn lowest_is_taken(call: &Call, answer: &Answer, before: &[u8], after: &[u8]) -> Result<(), String> {
    let free = records(before, after).position(|(record, _)| layout::zeros(record));
    let taken = records(before, after).position(|(one, other)| one != other);
    match matches!(call, Call::Open { .. }) && answer.refusal == 0 && taken != free {
        true => Err(format!("open took record {taken:?} and the first free one is {free:?}")),
        false => Ok(()),
    }
}

/// The records of two tables, side by side.
fn records<'a>(one: &'a [u8], other: &'a [u8]) -> impl Iterator<Item = (&'a [u8], &'a [u8])> {
    one.chunks_exact(RECORD).zip(other.chunks_exact(RECORD))
}

/// An answer as a text; zeros at the end of the buffer are left out.
pub fn shown(answer: &Answer) -> String {
    let Answer { refusal, numbers, part, buffer } = answer;
    match refusal {
        0 => format!("accepted {numbers:?} part {} buffer[{}] {}", shown_octets(part), buffer.len(), shown_buffer(buffer)),
        _ => format!("refused by {refusal}"),
    }
}

fn shown_buffer(buffer: &[u8]) -> String {
    let end = buffer.iter().rposition(|&octet| octet != 0).map_or(0, |last| last + 1);
    shown_octets(&buffer[..end])
}

/// The answer of both to a call without a table, or in what they differ.
pub fn packet_call(call: &PacketCall, mut noise: Random) -> Result<PacketAnswer, String> {
    let library = side::packet_call(call, &mut noise)?;
    let model = catch_unwind(|| reference::packet_call(call)).map_err(|_| "the model panicked")?;
    let shown = |answer: &PacketAnswer| format!("returned {} {:?} {}", answer.refusal, answer.fields, shown_buffer(&answer.buffer));
    match library == model {
        true => Ok(library),
        false => Err(format!("library: {}\nmodel:   {}", shown(&library), shown(&model))),
    }
}
