//! The table and who sits in it.

use std::collections::BTreeMap;

use crate::answer::{answer, Accepted, Outcome};
use crate::call::{refuse_if, Answer, Call, Event, Refused};
use crate::line::Line;
use crate::listing::listing;

/// A sound table, as lines by their pair. `Table::default()` is the empty one.
#[derive(Clone, Debug, Default, PartialEq, Eq)]
pub struct Table {
    lines: BTreeMap<(u64, u64), Line>,
}

impl Table {
    /// The table that has these lines, which are those of a sound one.
    pub fn of_lines(lines: impl IntoIterator<Item = ((u64, u64), Line)>) -> Table {
        Table { lines: lines.into_iter().collect() }
    }

    /// Makes one call: an accepted one changes the table, a refused one leaves it as it was.
    pub fn call(&mut self, call: &Call) -> Answer {
        let (room, least) = call.room();
        let short = room < least;
        let outcome = match call {
            Call::Open { tenant, line } => self.open((*tenant, *line)),
            Call::Close { tenant, line } => self.close((*tenant, *line)),
            Call::List { tenant, .. } => self.list(*tenant, short),
            Call::Timed { tenant, line, time, event } => self.timed((*tenant, *line), short, *time, event),
        };
        answer(outcome, room)
    }

    /// The open lines by rising pair.
    pub fn lines(&self) -> impl Iterator<Item = ((u64, u64), &Line)> {
        self.lines.iter().map(|(pair, line)| (*pair, line))
    }

    /// Opening gives the pair a fresh line, as long as it has none and fewer than 32 lines are open in all.
    fn open(&mut self, pair: (u64, u64)) -> Outcome {
        refuse_if(!exists(pair), 2)?;
        refuse_if(self.lines.contains_key(&pair), 4)?;
        refuse_if(self.lines.len() >= 32, 6)?;
        self.lines.insert(pair, Line::default());
        Ok(Accepted::default())
    }

    /// Closing takes the line away with all that it has: phase, children, holds and time.
    fn close(&mut self, pair: (u64, u64)) -> Outcome {
        refuse_if(!exists(pair), 2)?;
        self.lines.remove(&pair).map(|_| Accepted::default()).ok_or(Refused(5))
    }

    /// The listing shows the tenant's lines and changes nothing.
    fn list(&self, tenant: u64, short: bool) -> Outcome {
        refuse_if(!exists((tenant, 0)), 2)?;
        refuse_if(short, 3)?;
        let lines = self.lines().filter(|((owner, _), _)| *owner == tenant).map(|((_, number), line)| (number, line));
        Ok(Accepted { written: listing(lines).into_bytes(), ..Accepted::default() })
    }

    /// A timed call goes to its line, whose own clock may stand still but not go back; the event then decides on 8 to 13.
    fn timed(&mut self, pair: (u64, u64), short: bool, time: u64, event: &Event) -> Outcome {
        refuse_if(!exists(pair), 2)?;
        refuse_if(short, 3)?;
        let line = self.lines.get_mut(&pair).ok_or(Refused(5))?;
        refuse_if(time < line.time, 7)?;
        refuse_if(time > 4_294_967_295, 8)?;
        let mut later = line.at(time);
        let accepted = later.happen(event)?;
        *line = later;
        Ok(accepted)
    }
}

/// There are tenants 0 to 15 with lines 0 to 3 each.
fn exists((tenant, line): (u64, u64)) -> bool {
    tenant <= 15 && line <= 3
}
