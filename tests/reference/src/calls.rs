//! The six public calls, on lent buffers. Checks come in the order pack, first chart, second chart, 8, 9, the rest.

use crate::chart;
use crate::compare::difference;
use crate::happening;
use crate::pack::{self, Pack};
use crate::planner::Planner;
use crate::refusal::{without_place, Refusal, NO_ENDING, RANGE, SHORT};
use crate::state::State;

pub const CHART_ROOM: usize = 961;
pub const CHAIN_ROOM: usize = 62;
pub const LIST_ROOM: usize = 8;
pub const WORK_ROOM: usize = 49_152;

/// Where two charts differ: the length of the chain, whose bytes are in the lent buffer, and the fluent.
#[derive(Clone, Copy, PartialEq, Eq, Debug)]
pub struct Differs {
    pub length: usize,
    pub fluent: usize,
}

/// An ending found: its length, its actions being in the lent buffer, and the author's utility before and after.
#[derive(Clone, Copy, PartialEq, Eq, Debug)]
pub struct Found {
    pub length: usize,
    pub before: usize,
    pub after: usize,
}

/// Writes the chart of node 0 and gives its length.
pub fn start(pack: &[u8], result: &mut [u8], work: &mut [u8]) -> Result<usize, Refusal> {
    let pack = pack::read(pack)?;
    long_enough(result.len() >= CHART_ROOM && work.len() >= WORK_ROOM)?;
    clear(work);
    Ok(fill(result, &chart::write(&State::new(&pack.nodes, 0))))
}

/// The value of a fluent where a chain leads.
pub fn query(pack: &[u8], chart: &[u8], chain: &[u8], fluent: u64, work: &mut [u8]) -> Result<u8, Refusal> {
    let pack = pack::read(pack)?;
    let state = chart::read(&pack, chart)?;
    long_enough(work.len() >= WORK_ROOM)?;
    let fluent = below(fluent, pack.domains.len())?;
    let chain = chain.iter().map(|&c| below(c as u64, pack.characters)).collect::<Result<Vec<_>, _>>()?;
    clear(work);
    Ok(state.follow(0, &chain).values[fluent])
}

/// Nothing where both charts mean the same, else where they differ.
pub fn compare(
    pack: &[u8],
    first: &[u8],
    second: &[u8],
    result: &mut [u8],
    work: &mut [u8],
) -> Result<Option<Differs>, Refusal> {
    let pack = pack::read(pack)?;
    let first = chart::read(&pack, first)?;
    let second = chart::read(&pack, second)?;
    long_enough(result.len() >= CHAIN_ROOM && work.len() >= WORK_ROOM)?;
    clear(work);
    Ok(difference(&first, &second).map(|found| {
        let length = fill(result, &as_bytes(&found.chain));
        Differs { length, fluent: found.fluent }
    }))
}

/// Writes the chart that an action leaves and gives its length.
pub fn step(pack: &[u8], chart: &[u8], action: u64, result: &mut [u8], work: &mut [u8]) -> Result<usize, Refusal> {
    let pack = pack::read(pack)?;
    let state = chart::read(&pack, chart)?;
    long_enough(result.len() >= CHART_ROOM && work.len() >= WORK_ROOM)?;
    let action = below(action, pack.actions.len())?;
    clear(work);
    let next = happening::step(&pack, &state, action).map_err(without_place)?;
    Ok(fill(result, &chart::write(&next)))
}

/// Whether an action is explained to a character.
pub fn explained(
    pack: &[u8],
    chart: &[u8],
    character: u64,
    action: u64,
    foresight: u64,
    nesting: u64,
    work: &mut [u8],
) -> Result<bool, Refusal> {
    let pack = pack::read(pack)?;
    let state = chart::read(&pack, chart)?;
    long_enough(work.len() >= WORK_ROOM)?;
    let character = below(character, pack.characters)?;
    let action = below(action, pack.actions.len())?;
    let foresight = limit(foresight, 1, 6)?;
    let nesting = limit(nesting, 0, 3)?;
    clear(work);
    Ok(Planner::new(&pack, foresight).explained(character, action, &state, nesting))
}

/// Finds the shortest ending, the earliest among those, and writes its actions.
pub fn search(
    pack: &[u8],
    story: u64,
    foresight: u64,
    nesting: u64,
    result: &mut [u8],
    work: &mut [u8],
) -> Result<Found, Refusal> {
    let pack = pack::read(pack)?;
    long_enough(result.len() >= LIST_ROOM && work.len() >= WORK_ROOM)?;
    let story = limit(story, 1, 8)?;
    let foresight = limit(foresight, 1, 6)?;
    let nesting = limit(nesting, 0, 3)?;
    clear(work);
    let ending = search_pack(&pack, story, foresight, nesting)?;
    let length = fill(result, &as_bytes(&ending.actions));
    Ok(Found { length, before: ending.before, after: ending.after })
}

/// Search under limits already checked.
pub fn search_pack(
    pack: &Pack,
    story: usize,
    foresight: usize,
    nesting: usize,
) -> Result<crate::planner::Ending, Refusal> {
    let start = State::new(&pack.nodes, 0);
    Planner::new(pack, foresight).search(&start, story, nesting).ok_or(without_place(NO_ENDING))
}

fn long_enough(enough: bool) -> Result<(), Refusal> {
    if enough {
        Ok(())
    } else {
        Err(without_place(SHORT))
    }
}

/// A number handed in that must be below a count.
fn below(number: u64, count: usize) -> Result<usize, Refusal> {
    if number < count as u64 {
        Ok(number as usize)
    } else {
        Err(without_place(RANGE))
    }
}

/// A limit handed in.
fn limit(number: u64, least: u64, most: u64) -> Result<usize, Refusal> {
    if least <= number && number <= most {
        Ok(number as usize)
    } else {
        Err(without_place(RANGE))
    }
}

/// What the work buffer has after an answer, and after 10 to 13. This implementation needs none of it.
fn clear(work: &mut [u8]) {
    work[..WORK_ROOM].fill(0);
}

/// Writes the first bytes of a result buffer, leaves the rest, and gives how many were written.
fn fill(result: &mut [u8], bytes: &[u8]) -> usize {
    result[..bytes.len()].copy_from_slice(bytes);
    bytes.len()
}

fn as_bytes(numbers: &[usize]) -> Vec<u8> {
    numbers.iter().map(|&number| number as u8).collect()
}
