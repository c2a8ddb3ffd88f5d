//! Pairs of histories: one tenant's calls and everybody's opens and closes are the same in both, the other tenants' other calls are not.
//! The tenant must get the same answers.

use crate::both::shown;
use crate::drive::Driver;
use crate::history::{seen, Run, Told};
use crate::marks;
use crate::random::Random;
use crate::shape::{Shape, Shaped};
use crate::shrink::shrunk;
use crate::side::Library;
use reference::{Answer, Call};

#[derive(Clone, Copy, PartialEq)]
enum Where {
    Both,
    First,
    Second,
}

/// A call of one history or of both.
#[derive(Clone)]
struct Step {
    made: Where,
    call: Call,
}

impl Shaped for Step {
    fn shape(&mut self) -> Shape<'_> {
        self.call.shape()
    }
}

fn tenant_of(call: &Call) -> u64 {
    match *call {
        Call::Open { tenant, .. } | Call::Close { tenant, .. } | Call::List { tenant, .. } | Call::Timed { tenant, .. } => tenant,
    }
}

/// Whether a call has to be in both histories.
fn is_kept(call: &Call, tenant: u64) -> bool {
    tenant_of(call) == tenant || matches!(call, Call::Open { .. } | Call::Close { .. })
}

/// Both histories so far.
struct Twins {
    tenant: u64,
    seed: u64,
    first: Library,
    second: Library,
    steps: Vec<Step>,
}

impl Twins {
    fn new(tenant: u64, seed: u64) -> Twins {
        Twins { tenant, seed, first: Library::empty(seed), second: Library::empty(!seed), steps: Vec::new() }
    }

    /// Makes a call where it belongs; the answers that were given, or in what they differ.
    fn make(&mut self, step: &Step) -> Result<Vec<Answer>, String> {
        match step.made {
            Where::First => Ok(vec![self.first.call(&step.call)?]),
            Where::Second => Ok(vec![self.second.call(&step.call)?]),
            Where::Both => {
                let (one, other) = (self.first.call(&step.call)?, self.second.call(&step.call)?);
                match one == other || tenant_of(&step.call) != self.tenant {
                    true => Ok(vec![one, other]),
                    false => Err(format!("first:  {}\nsecond: {}", shown(&one), shown(&other))),
                }
            }
        }
    }

    /// The mark of an accepted call.
    fn mark(&self, step: &Step) -> Option<&'static str> {
        let differ = self.first.table() != self.second.table();
        match step.made {
            Where::First => Some(marks::FIRST_ALONE),
            Where::Second => Some(marks::SECOND_ALONE),
            Where::Both => (differ && tenant_of(&step.call) == self.tenant).then_some(marks::OWN),
        }
    }

    /// Makes one call more and counts it. A difference is shrunk and told.
    fn step(&mut self, made: Where, call: Call, run: &mut Run) -> Told {
        let step = Step { made, call };
        self.steps.push(step.clone());
        let answers = self.make(&step).map_err(|what| told(&self.steps, self.tenant, self.seed, &what))?;
        answers.iter().for_each(|answer| run.counts.returned(step.name(), answer.refusal));
        let accepted = answers.iter().all(|answer| answer.refusal == 0);
        self.mark(&step).filter(|_| accepted).into_iter().for_each(|mark| run.counts.marked(mark));
        Ok(())
    }

    /// A call of the first history. Where both have it, calls of others that the second alone has come first.
    fn go_on(&mut self, driver: &Driver, random: &mut Random, run: &mut Run) -> Told {
        let (tenant, own) = (self.tenant, random.chance(40));
        let Some(call) = drawn(driver, self.first.table(), random, |call| (tenant_of(call) == tenant) == own) else {
            return Ok(());
        };
        if !is_kept(&call, tenant) {
            return self.step(Where::First, call, run);
        }
        for _ in 0..random.index(3) {
            if let Some(other) = drawn(driver, self.second.table(), random, |call| !is_kept(call, tenant)) {
                self.step(Where::Second, other, run)?;
            }
        }
        self.step(Where::Both, call, run)
    }
}

/// A call on a table that is such as is wanted, where one is found.
fn drawn(driver: &Driver, table: &[u8], random: &mut Random, wanted: impl Fn(&Call) -> bool) -> Option<Call> {
    (0..40).map(|_| driver.call(table, random)).find(wanted)
}

/// One pair of histories, made as it goes.
pub fn one(index: u64, run: &mut Run) -> Told {
    let random = &mut Random::of(run.seed, index);
    let driver = Driver::new(random);
    let tenant = random.pick(&driver.tenants());
    let mut twins = Twins::new(tenant, random.draw());
    for call in driver.opens() {
        twins.step(Where::Both, call, run)?;
    }
    (0..50 + random.below(250)).try_for_each(|_| twins.go_on(&driver, random, run))
}

/// In what the tenant's answers differ, if they do and the two histories are such a pair.
fn difference(steps: &[Step], tenant: u64, seed: u64) -> Option<String> {
    if steps.iter().any(|step| is_kept(&step.call, tenant) != (step.made == Where::Both)) {
        return None;
    }
    let mut twins = Twins::new(tenant, seed);
    steps.iter().find_map(|step| twins.make(step).err())
}

fn told(steps: &[Step], tenant: u64, seed: u64, what: &str) -> String {
    let steps = shrunk(steps.to_vec(), |steps| difference(steps, tenant, seed).is_some());
    let mut told = format!("deviation between two histories that tenant {tenant} must not tell apart:\n");
    for step in &steps {
        let place = match step.made {
            Where::Both => "both  ",
            Where::First => "first ",
            Where::Second => "second",
        };
        told += &format!("  {place} {}\n", step.call.shown());
    }
    told + &seen(difference(&steps, tenant, seed), what)
}
