//! The reference model: a second, plain program for the rules of document 01, to be compared with the library.
//!
//! It models the handset side of TS 24.502 clause 7 for lines that share one table: how a line chooses an N3IWF, how it reads and
//! writes EAP-5G packets, and how its security associations come and go. It takes the numbers and lent octets of the library's calls
//! and gives their answers: the refusal number or 0, the numbers of the answer, the octets of the returned part, and the answer
//! buffer whole.
//!
//! What it does not have is a byte layout. The table is a map from a pair (tenant, line) to a [`Line`]; a line keeps its phase as an
//! enum with the data of that phase, its holds and its children as vectors; texts are read by splitting and packets by slices. Octets
//! occur only at the edge: what a caller lends, and what an answer hands back. The empty table is sound, each call keeps a table
//! sound, and [`Table::of_lines`] is given the lines of a sound one, so refusal 1 has no place here.
//!
//! Refusals go by their number in document 01. The lowest that applies is given, so each call tests them in rising order and stops at
//! the first. A timed call passes two such places, one after the other: `Table::timed` for 2, 3, 5, 7 and the 8 of the time, then its
//! event for the other causes of 8 and for 9 to 13. An event works on a copy of its line, which takes the line's place only when the
//! call is accepted; that is why a refused call changes nothing. The model never panics, whatever numbers and octets it is given, as
//! long as memory has room for the answer buffer.
//!
//! The modules stand below in the order of document 01, each with a sentence at its head.

#![forbid(unsafe_code)]

mod call;
mod answer;
mod table;
mod config;
mod selection;
mod packet;
mod line;
mod hold;
mod listing;
#[cfg(test)]
mod tests;

pub use call::{Answer, Call, Event, PacketAnswer, PacketCall};
pub use config::{Address, Plmn};
pub use hold::Hold;
pub use line::{Child, Line, Phase, Session};
pub use packet::packet_call;
pub use selection::{Facts, Place};
pub use table::Table;
