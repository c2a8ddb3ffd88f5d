//! States and calls that a run has to meet beside refusals and answers.

use crate::layout::{Line, Phase, Turn};
use reference::{Answer, Call, Event};

pub const ALL: [&str; 19] = [
    "calls with a full table",
    "calls with eight holds on a line",
    "calls with eight children on a line",
    "calls with seven holds and eight children on a line",
    "holds that ended",
    "addresses of version 4 chosen",
    "addresses of version 6 chosen",
    "sixteen addresses passed over",
    "packets with spare bits",
    "packets with extensions",
    "packets of 65,535 octets",
    "first replies",
    "later replies with parameters",
    "later replies without parameters",
    UNSOUND,
    SOUND,
    FIRST_ALONE,
    SECOND_ALONE,
    OWN,
];

/// Damaged tables.
pub const UNSOUND: &str = "unsound tables, each lent to every call";
pub const SOUND: &str = "changed tables that are sound";

/// Accepted calls of pairs of histories.
pub const FIRST_ALONE: &str = "calls of others accepted in the first history alone";
pub const SECOND_ALONE: &str = "calls of others accepted in the second history alone";
pub const OWN: &str = "calls of a tenant accepted in both histories while their tables differ";

/// The marks of a call, by the line before it and all lines after it.
pub fn of(call: &Call, answer: &Answer, before: Option<&Line>, after: &[Line]) -> Vec<&'static str> {
    let mut met = of_lines(after).to_vec();
    if let (0, Call::Timed { time, event, .. }, Some(line)) = (answer.refusal, call, before) {
        met.push(line.holds.iter().any(|hold| hold.end.is_some_and(|end| end <= *time)));
        met.extend(of_choice(&answer.numbers));
        met.extend(of_packet(event, answer));
        met.extend(of_reply(event, &line.phase));
    }
    ALL.iter().zip(met).filter(|(_, met)| *met).map(|(mark, _)| *mark).collect()
}

fn of_lines(lines: &[Line]) -> [bool; 4] {
    let any = |full: fn(&Line) -> bool| lines.iter().any(full);
    [
        lines.len() == 32,
        any(|line| line.holds.len() == 8),
        any(|line| line.children.len() == 8),
        any(|line| line.holds.len() == 7 && line.children.len() == 8),
    ]
}

fn of_choice(numbers: &[u64; 12]) -> [bool; 3] {
    [numbers[6] == 4, numbers[6] == 6, numbers[2] == 16]
}

fn of_packet(event: &Event, answer: &Answer) -> [bool; 3] {
    let Event::Eap { packet } = event else {
        return [false; 3];
    };
    let end = if answer.part.is_empty() { 14 } else { (answer.numbers[4] + answer.numbers[5]) as usize };
    [packet.get(13).is_some_and(|spare| *spare != 0), packet.len() > end, packet.len() == 65535]
}

fn of_reply(event: &Event, phase: &Phase) -> [bool; 3] {
    let Event::Reply { parameters, .. } = event else {
        return [false; 3];
    };
    let first = matches!(phase, Phase::Eap(_, Turn::FirstOwed, _));
    [first, !first && !parameters.is_empty(), !first && parameters.is_empty()]
}
