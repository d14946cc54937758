//! The long comparison: any number of drawn calls of all six kinds, put to an implementation with all that it is lent
//! between margins (or apart), and to the tuned engine. What differs is counted and told, so that a run goes on to its end.

use crate::agreement::what;
use crate::lending::{Lent, Noise, Seen};
use crate::tally::Tally;
use crate::{asks, effort, plans};
use reference::call::{Ask, Call};
use reference::generate::random::Random;
use reference::implementation::Implementation;
use reference::tuned::Engine;
use std::fmt;
use std::panic::{catch_unwind, AssertUnwindSafe};

pub const KINDS: [&str; 6] = ["start", "query", "compare", "step", "explained", "search"];

/// At most so many differences and violations are told in full.
const TOLD: u64 = 10;

/// Where what is lent lies.
#[derive(Clone, Copy, PartialEq, Eq)]
pub enum Lending {
    /// In one piece of memory, between margins.
    Together,
    /// Each part in a piece of its own, for runs under a tool that watches memory.
    Apart,
}

/// What a run has counted.
#[derive(Default)]
pub struct Count {
    pub calls: u64,
    /// Calls of which the answer, or a byte of a result or work buffer, is not the tuned engine's.
    pub differences: u64,
    /// Calls after which a margin, bytes to be read, the rest of a buffer or an entry of the report is not as it must be.
    pub violations: u64,
    /// What the calls of each kind met.
    pub met: [Tally; 6],
}

impl fmt::Display for Count {
    fn fmt(&self, f: &mut fmt::Formatter) -> fmt::Result {
        write!(f, "{} calls, {} differences, {} violations", self.calls, self.differences, self.violations)
    }
}

/// Puts the calls of so many seeds, beginning with this one.
pub fn run(
    by: &mut impl Implementation,
    lending: Lending,
    seeds: u64,
    first: u64,
    mut progress: impl FnMut(&Count),
) -> Count {
    let (mut count, mut engine, noise) = (Count::default(), Engine::new(), Noise::new());
    for seed in first..first + seeds {
        let r = &mut Random::new(seed);
        let call = any(r, &mut engine);
        let lent = Lent::new(&call, &noise, r);
        let expected = lent.to(&mut engine, &call);
        count.calls += 1;
        match tried(by, lending, &lent, &call) {
            Ok(found) if found == expected => count.met[kind(&call.ask)].note(what(&found)),
            Ok(found) => {
                count.differences += 1;
                if count.differences <= TOLD {
                    println!("seed {seed}: {:?}, expected {:?}: {call}", found.outcome, expected.outcome);
                }
            }
            Err(broken) => {
                count.violations += 1;
                if count.violations <= TOLD {
                    println!("seed {seed}: {broken}");
                }
            }
        }
        progress(&count);
    }
    count
}

/// What is seen of a call, or which rule of lent buffers it breaks.
fn tried(by: &mut impl Implementation, lending: Lending, lent: &Lent, call: &Call) -> Result<Seen, String> {
    let put = || match lending {
        Lending::Together => lent.to(by, call),
        Lending::Apart => lent.apart(by, call),
    };
    catch_unwind(AssertUnwindSafe(put)).map_err(|told| match told.downcast::<String>() {
        Ok(told) => *told,
        Err(told) => told.downcast::<&str>().map_or("it panics".to_string(), |told| told.to_string()),
    })
}

/// A call of any kind that doesn't take long.
pub fn any(r: &mut Random, engine: &mut Engine) -> Call {
    loop {
        let call = match r.below(6) {
            0 => asks::start(r),
            1 => asks::query(r),
            2 => asks::compare(r),
            3 => asks::step(r),
            4 => plans::search(r),
            _ => plans::explanations(r, engine, 1).remove(0),
        };
        if effort::quick(&call) {
            return call;
        }
    }
}

/// A call's place in `KINDS`.
fn kind(ask: &Ask) -> usize {
    match ask {
        Ask::Start => 0,
        Ask::Query { .. } => 1,
        Ask::Compare { .. } => 2,
        Ask::Step { .. } => 3,
        Ask::Explained { .. } => 4,
        Ask::Search { .. } => 5,
        Ask::Ending => unreachable!("the program is not drawn"),
    }
}
