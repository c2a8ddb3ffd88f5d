//! Compares the library, through its exported C calls, with the reference model, and sees that it keeps what it promises beyond single
//! answers: tenants apart, damaged tables refused, nothing written but what is its own.
//!
//!     compare [--calls N | --seconds S] [--seed X] [--part NAME]
//!
//! The systematic parts are made whole. The random parts share N calls or S seconds; the same seed gives the same calls. The status is 0
//! where nothing deviates and everything that the interface allows was met, 1 where not, 2 for other arguments. NAME is one part, which is
//! made alone and need not meet everything: phases, bounds, corpus, octets, kept, histories, packets, pairs or damage.

#![deny(unsafe_code)]

mod both;
mod bounds;
mod corpus;
mod counts;
mod damage;
mod draw;
mod drive;
mod flaws;
mod guard;
mod histories;
mod history;
mod judge;
mod kept;
mod layout;
mod lent;
#[allow(unsafe_code)]
mod library;
mod marks;
mod model;
mod pairs;
mod phases;
mod random;
mod reach;
mod requests;
mod shape;
mod shrink;
mod side;

use history::{Run, Told};
use std::process::ExitCode;
use std::time::{Duration, Instant};

const USAGE: &str = "compare [--calls N | --seconds S] [--seed X] [--part NAME]";

#[derive(Clone, Copy)]
enum Budget {
    Calls(u64),
    Seconds(u64),
}

struct Arguments {
    budget: Budget,
    seed: u64,
    part: Option<String>,
}

impl Arguments {
    /// Whether a part is to be made.
    fn wants(&self, part: &str) -> bool {
        self.part.as_ref().is_none_or(|name| name == part)
    }
}

/// A part that is made whole, with its name and what it makes; what it says of itself is how many there were.
type Whole = (&'static str, &'static str, fn(&mut Run) -> Result<u64, String>);

const WHOLE: [Whole; 5] = [
    ("phases", "every event on lines in every phase", phases::all),
    ("bounds", "lengths and numbers around their bounds", bounds::all),
    ("corpus", "stored requests", corpus::all),
    ("octets", "octets and lengths of tables", damage::systematic),
    ("kept", "stored tables", kept::all),
];

/// A part that is made again and again with new random numbers, with its name, what it makes and its share of the budget in hundredths.
type Repeated = (&'static str, &'static str, u64, fn(u64, &mut Run) -> Told);

const REPEATED: [Repeated; 4] = [
    ("histories", "histories", 45, histories::one),
    ("packets", "hundreds of calls without a table", 5, histories::packets),
    ("pairs", "pairs of histories", 20, pairs::one),
    ("damage", "tables damaged two hundred times", 30, damage::one),
];

fn main() -> ExitCode {
    let Some(arguments) = arguments() else {
        eprintln!("{USAGE}");
        return ExitCode::from(2);
    };
    let seed = arguments.seed;
    println!("seed {seed}");
    let mut run = Run { seed, counts: counts::Counts::default() };
    let begun = Instant::now();
    let told = all(&arguments, &mut run);
    println!("{}", run.counts.shown());
    println!("{} calls in {:.1} s", run.counts.calls, begun.elapsed().as_secs_f64());
    let faults = match told {
        Ok(()) if arguments.part.is_some() => vec![],
        Ok(()) => run.counts.faults(),
        Err(deviation) => vec![deviation],
    };
    faults.iter().for_each(|fault| println!("{fault}"));
    println!("seed {seed}: {}", if faults.is_empty() { "no deviation" } else { "failed" });
    ExitCode::from(u8::from(!faults.is_empty()))
}

fn arguments() -> Option<Arguments> {
    let mut arguments = Arguments { budget: Budget::Calls(400_000), seed: 1, part: None };
    let mut given = std::env::args().skip(1);
    while let Some(name) = given.next() {
        let value = given.next()?;
        let number = || value.parse().ok();
        match name.as_str() {
            "--calls" => arguments.budget = Budget::Calls(number()?),
            "--seconds" => arguments.budget = Budget::Seconds(number()?),
            "--seed" => arguments.seed = number()?,
            "--part" => arguments.part = Some(value),
            _ => return None,
        }
    }
    let mut parts = WHOLE.iter().map(|part| part.0).chain(REPEATED.iter().map(|part| part.0));
    parts.any(|part| arguments.wants(part)).then_some(arguments)
}

fn all(arguments: &Arguments, run: &mut Run) -> Told {
    if library::table_length() != layout::TABLE as u64 {
        return Err(format!("deviation: a table has {} octets", library::table_length()));
    }
    for (_, name, part) in WHOLE.into_iter().filter(|part| arguments.wants(part.0)) {
        let (calls, begun) = (run.counts.calls, Instant::now());
        let count = part(run).map_err(|told| format!("{name}\n{told}"))?;
        said(name, count, run.counts.calls - calls, begun);
    }
    for (number, (_, name, share, part)) in (1..).zip(REPEATED).filter(|(_, part)| arguments.wants(part.0)) {
        let (calls, begun) = (run.counts.calls, Instant::now());
        let mut count = 0;
        while count == 0 || !is_used(arguments.budget, share, run.counts.calls - calls, begun) {
            let index = number << 32 | count;
            part(index, run).map_err(|told| format!("{name}, number {count} of seed {}\n{told}", run.seed))?;
            count += 1;
        }
        said(name, count, run.counts.calls - calls, begun);
    }
    Ok(())
}

fn is_used(budget: Budget, share: u64, calls: u64, begun: Instant) -> bool {
    match budget {
        Budget::Calls(most) => calls >= most.saturating_mul(share) / 100,
        Budget::Seconds(most) => begun.elapsed() >= Duration::from_millis(most.saturating_mul(share).saturating_mul(10)),
    }
}

fn said(name: &str, count: u64, calls: u64, begun: Instant) {
    println!("{name}: {count}, {calls} calls in {:.1} s", begun.elapsed().as_secs_f64());
}
