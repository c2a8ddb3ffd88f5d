//! The listing of one tenant.

use crate::config::Address;
use crate::line::{Child, Line, Phase};

/// Lines by rising number, each followed by its children in the order made; no line gives no octets.
pub(crate) fn listing<'a>(lines: impl Iterator<Item = (u64, &'a Line)>) -> String {
    lines.map(|(number, line)| records(number, &line.phase)).collect()
}

/// A line record has number, phase, address or `-`, and count of children; a child record has its line, SPI in hex, and session.
fn records(number: u64, phase: &Phase) -> String {
    let (word, address, children) = shown(phase);
    let address = address.map_or("-".to_string(), Address::hex);
    let line = format!("line\t{number}\t{word}\t{address}\t{}\n", children.len());
    let children = children.iter().map(|child| format!("child\t{number}\t{:08x}\t{}\n", child.spi, child.session));
    std::iter::once(line).chain(children).collect()
}

/// What is shown of a phase: its word, the chosen address from chosen to live, the children while live.
fn shown(phase: &Phase) -> (&str, Option<Address>, &[Child]) {
    match phase {
        Phase::Idle => ("idle", None, &[]),
        Phase::Country(_) => ("country", None, &[]),
        Phase::Name(_) => ("name", None, &[]),
        Phase::Chosen(address) => ("chosen", Some(*address), &[]),
        Phase::Init(address) => ("init", Some(*address), &[]),
        Phase::Auth(address) => ("auth", Some(*address), &[]),
        Phase::Eap(address, _) => ("eap", Some(*address), &[]),
        Phase::Sure(address) => ("sure", Some(*address), &[]),
        Phase::Live(address, children) => ("live", Some(*address), children),
    }
}
