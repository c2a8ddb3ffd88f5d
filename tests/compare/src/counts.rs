//! What a run has met: refusals and answers of each call, events in each phase, and the marks.

use crate::layout::{Line, Phase, Turn};
use crate::marks;
use crate::shape::Shaped;
use reference::{Answer, Call};
use std::collections::BTreeMap;

/// Each call with the numbers that it may return, by the comments of the header; 0 is "accepted".
const RETURNED: [(&str, &[u64]); 22] = [
    ("open", &[0, 1, 2, 4, 6]),
    ("close", &[0, 1, 2, 5]),
    ("list", &[0, 1, 2, 3]),
    ("start", &[0, 1, 2, 3, 5, 7, 8, 9, 10, 13]),
    ("country", &[0, 1, 2, 3, 5, 7, 8, 9, 10]),
    ("address", &[0, 1, 2, 5, 7, 8, 10]),
    ("begin", &[0, 1, 2, 5, 7, 8, 10]),
    ("init", &[0, 1, 2, 5, 7, 8, 10]),
    ("eap", &[0, 1, 2, 5, 7, 8, 9, 10]),
    ("reply", &[0, 1, 2, 3, 5, 7, 8, 9, 10]),
    ("final", &[0, 1, 2, 5, 7, 8, 10]),
    ("error", &[0, 1, 2, 5, 7, 8, 10]),
    ("congestion", &[0, 1, 2, 5, 7, 8, 10]),
    ("give_up", &[0, 1, 2, 5, 7, 8, 10]),
    ("child_made", &[0, 1, 2, 5, 7, 8, 10, 11, 12]),
    ("child_deleted", &[0, 1, 2, 5, 7, 8, 10]),
    ("ike_delete", &[0, 1, 2, 5, 7, 8, 10]),
    ("read_request", &[0, 9]),
    ("read_response", &[0, 9]),
    ("write_response", &[0, 3, 8, 9]),
    ("parameter", &[0, 8, 9]),
    ("timer", &[0, 8]),
];

/// Each accepted answer that the header names: the call, the action, the stop, the slice of the part.
const ANSWERED: [(&str, u64, u64, u64); 29] = [
    ("list", 0, 0, 0),
    ("start", 1, 1, 0),
    ("start", 1, 4, 0),
    ("start", 2, 0, 2),
    ("start", 3, 0, 1),
    ("start", 3, 0, 2),
    ("start", 4, 0, 0),
    ("country", 1, 2, 0),
    ("country", 1, 3, 0),
    ("country", 1, 4, 0),
    ("country", 3, 0, 1),
    ("country", 3, 0, 2),
    ("country", 4, 0, 0),
    ("address", 1, 4, 0),
    ("address", 4, 0, 0),
    ("begin", 5, 0, 0),
    ("init", 6, 0, 0),
    ("eap", 7, 0, 0),
    ("eap", 8, 0, 3),
    ("eap", 10, 0, 0),
    ("reply", 9, 0, 0),
    ("final", 11, 0, 0),
    ("final", 12, 0, 0),
    ("error", 13, 0, 0),
    ("congestion", 12, 0, 0),
    ("give_up", 0, 0, 0),
    ("child_made", 0, 0, 0),
    ("child_deleted", 0, 0, 0),
    ("ike_delete", 12, 0, 0),
];

const STAGES: [&str; 11] =
    ["idle", "country", "name", "chosen", "init", "auth", "eap, first owed", "eap, owed", "eap, none owed", "sure", "live"];

#[derive(Default)]
pub struct Counts {
    pub calls: u64,
    returned: BTreeMap<(&'static str, u64), u64>,
    answered: BTreeMap<(&'static str, u64, u64, u64), u64>,
    staged: BTreeMap<(&'static str, &'static str), u64>,
    marks: BTreeMap<&'static str, u64>,
}

impl Counts {
    pub fn returned(&mut self, name: &'static str, refusal: u64) {
        self.calls += 1;
        *self.returned.entry((name, refusal)).or_default() += 1;
    }

    /// An answer of a call on the table, with the line before it and all lines after it.
    pub fn answered(&mut self, call: &Call, answer: &Answer, before: Option<&Line>, after: &[Line]) {
        let name = call.name();
        self.returned(name, answer.refusal);
        if let (Call::Timed { .. }, Some(line)) = (call, before) {
            *self.staged.entry((name, stage(&line.phase))).or_default() += 1;
        }
        if answer.refusal == 0 && !matches!(name, "open" | "close") {
            let [action, stop, _, part, ..] = answer.numbers;
            *self.answered.entry((name, action, stop, part)).or_default() += 1;
        }
        for mark in marks::of(call, answer, before, after) {
            self.marked(mark);
        }
    }

    pub fn marked(&mut self, mark: &'static str) {
        *self.marks.entry(mark).or_default() += 1;
    }

    /// What the interface allows and the run did not meet, and what the run met and the interface does not allow.
    pub fn faults(&self) -> Vec<String> {
        let mut faults = Vec::new();
        for (name, numbers) in RETURNED {
            let unmet = numbers.iter().filter(|number| !self.returned.contains_key(&(name, **number)));
            faults.extend(unmet.map(|number| format!("scal_{name} never returned {number}")));
        }
        let allowed = |name, number| RETURNED.iter().any(|(other, numbers)| *other == name && numbers.contains(&number));
        let strange = self.returned.keys().filter(|(name, number)| !allowed(*name, *number));
        faults.extend(strange.map(|(name, number)| format!("scal_{name} returned {number}, which the header does not name")));
        let unmet = ANSWERED.iter().filter(|answer| !self.answered.contains_key(answer));
        faults.extend(unmet.map(|answer| format!("never answered (call, action, stop, part): {answer:?}")));
        let strange = self.answered.keys().filter(|answer| !ANSWERED.contains(answer));
        faults.extend(strange.map(|answer| format!("answered, which the header does not name (call, action, stop, part): {answer:?}")));
        faults.extend(self.unmet_stages());
        faults.extend(self.unlent());
        faults.extend(marks::ALL.iter().filter(|mark| !self.marks.contains_key(*mark)).map(|mark| format!("never met: {mark}")));
        faults
    }

    fn unmet_stages(&self) -> Vec<String> {
        let events = RETURNED[3..17].iter().map(|(name, _)| *name);
        let cells = events.flat_map(|name| STAGES.map(|stage| (name, stage)));
        cells.filter(|cell| !self.staged.contains_key(cell)).map(|(name, stage)| format!("never scal_{name} in phase {stage}")).collect()
    }

    /// Calls on the table that did not get each unsound table once; no other table refuses by 1.
    fn unlent(&self) -> Vec<String> {
        let tables = self.marks.get(marks::UNSOUND);
        let unlent = RETURNED[..17].iter().filter(|(name, _)| self.returned.get(&(*name, 1)) != tables);
        unlent.map(|(name, _)| format!("scal_{name} did not get each unsound table once")).collect()
    }

    /// The counts as a table: a row for each call, a column for each number that a call returned.
    pub fn shown(&self) -> String {
        let mut shown = String::from("call          ");
        (0..=13).for_each(|number| shown += &format!("{number:>8}"));
        for (name, numbers) in RETURNED {
            shown += &format!("\n{name:<14}");
            for number in 0..=13 {
                let count = self.returned.get(&(name, number)).copied().unwrap_or(0);
                shown += &if numbers.contains(&number) || count > 0 { format!("{count:>8}") } else { format!("{:>8}", "-") };
            }
        }
        for mark in marks::ALL {
            shown += &format!("\n{mark}: {}", self.marks.get(mark).copied().unwrap_or(0));
        }
        shown
    }
}

fn stage(phase: &Phase) -> &'static str {
    STAGES[match phase {
        Phase::Idle => 0,
        Phase::Country(_) => 1,
        Phase::Name(_) => 2,
        Phase::Chosen(_) => 3,
        Phase::Init(_) => 4,
        Phase::Auth(_) => 5,
        Phase::Eap(_, Turn::FirstOwed, _) => 6,
        Phase::Eap(_, Turn::Owed, _) => 7,
        Phase::Eap(_, Turn::NoneOwed, _) => 8,
        Phase::Sure(_) => 9,
        Phase::Live(_) => 10,
    }]
}
