//! What an implementation of the calls is, and how a `Call` is put to it: the readable one, the tuned one and others
//! alike.

use crate::call::{lent, Answer, Ask, Call, Outcome, Work};
use crate::calls::{self, Differs, Found};
use crate::ending;
use crate::refusal::Refusal;

/// The calls of an implementation, so that each of them answers a `Call` by the same function.
pub trait Implementation {
    fn start(&mut self, pack: &[u8], result: &mut [u8], work: &mut [u8]) -> Result<usize, Refusal>;
    fn query(&mut self, pack: &[u8], chart: &[u8], chain: &[u8], fluent: u64, work: &mut [u8]) -> Result<u8, Refusal>;
    fn compare(
        &mut self,
        pack: &[u8],
        first: &[u8],
        second: &[u8],
        result: &mut [u8],
        work: &mut [u8],
    ) -> Result<Option<Differs>, Refusal>;
    fn step(
        &mut self,
        pack: &[u8],
        chart: &[u8],
        action: u64,
        result: &mut [u8],
        work: &mut [u8],
    ) -> Result<usize, Refusal>;
    #[allow(clippy::too_many_arguments)]
    fn explained(
        &mut self,
        pack: &[u8],
        chart: &[u8],
        character: u64,
        action: u64,
        foresight: u64,
        nesting: u64,
        work: &mut [u8],
    ) -> Result<bool, Refusal>;
    fn search(
        &mut self,
        pack: &[u8],
        story: u64,
        foresight: u64,
        nesting: u64,
        result: &mut [u8],
        work: &mut [u8],
    ) -> Result<Found, Refusal>;
    fn ending(&mut self, pack: &[u8]) -> String;
}

/// The readable implementation: `calls` and `ending`.
pub struct Reference;

/// Answers a call by the readable implementation.
pub fn answer(call: &Call) -> Answer {
    answer_by(&mut Reference, call)
}

/// Answers a call by any implementation.
pub fn answer_by(implementation: &mut impl Implementation, call: &Call) -> Answer {
    let mut result = lent(call.result);
    let mut work = lent(call.work);
    let outcome = outcome(implementation, &call.ask, call.handed(), &mut result, &mut work);
    Answer { outcome, result, work: Work::after(&work) }
}

/// Puts a question to an implementation. The bytes that it reads are those of `Call::handed`, wherever they lie.
pub fn outcome(
    by: &mut impl Implementation,
    ask: &Ask,
    [pack, first, second]: [&[u8]; 3],
    result: &mut [u8],
    work: &mut [u8],
) -> Outcome {
    let outcome = match ask {
        Ask::Start => by.start(pack, result, work).map(Outcome::Length),
        Ask::Query { fluent, .. } => by.query(pack, first, second, *fluent, work).map(Outcome::Value),
        Ask::Compare { .. } => {
            let found = by.compare(pack, first, second, result, work);
            found.map(|found| found.map_or(Outcome::Same, Outcome::Differs))
        }
        Ask::Step { action, .. } => by.step(pack, first, *action, result, work).map(Outcome::Length),
        Ask::Explained { character, action, foresight, nesting, .. } => {
            by.explained(pack, first, *character, *action, *foresight, *nesting, work).map(Outcome::Verdict)
        }
        Ask::Search { story, foresight, nesting } => {
            by.search(pack, *story, *foresight, *nesting, result, work).map(Outcome::Found)
        }
        Ask::Ending => Ok(Outcome::Text(by.ending(pack))),
    };
    outcome.unwrap_or_else(Outcome::Refused)
}

impl Implementation for Reference {
    fn start(&mut self, pack: &[u8], result: &mut [u8], work: &mut [u8]) -> Result<usize, Refusal> {
        calls::start(pack, result, work)
    }

    fn query(&mut self, pack: &[u8], chart: &[u8], chain: &[u8], fluent: u64, work: &mut [u8]) -> Result<u8, Refusal> {
        calls::query(pack, chart, chain, fluent, work)
    }

    fn compare(
        &mut self,
        pack: &[u8],
        first: &[u8],
        second: &[u8],
        result: &mut [u8],
        work: &mut [u8],
    ) -> Result<Option<Differs>, Refusal> {
        calls::compare(pack, first, second, result, work)
    }

    fn step(
        &mut self,
        pack: &[u8],
        chart: &[u8],
        action: u64,
        result: &mut [u8],
        work: &mut [u8],
    ) -> Result<usize, Refusal> {
        calls::step(pack, chart, action, result, work)
    }

    fn explained(
        &mut self,
        pack: &[u8],
        chart: &[u8],
        character: u64,
        action: u64,
        foresight: u64,
        nesting: u64,
        work: &mut [u8],
    ) -> Result<bool, Refusal> {
        calls::explained(pack, chart, character, action, foresight, nesting, work)
    }

    fn search(
        &mut self,
        pack: &[u8],
        story: u64,
        foresight: u64,
        nesting: u64,
        result: &mut [u8],
        work: &mut [u8],
    ) -> Result<Found, Refusal> {
        calls::search(pack, story, foresight, nesting, result, work)
    }

    fn ending(&mut self, pack: &[u8]) -> String {
        ending::ending(pack)
    }
}
