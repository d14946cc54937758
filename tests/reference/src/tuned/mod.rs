//! The calls once more, tuned: what benchmarks compare with. Packs are read into flat lists, states are tables of fixed
//! size, a step allocates nothing, and a search keeps every state it meets with all it has found out about it.
//! With `Engine::held` what a search keeps is limited to so many bytes.
//! An `Engine` is kept from call to call for its memory; nothing of one call's contents is used in another.

mod compare;
mod compile;
mod held;
mod memory;
mod reader;
mod rules;
mod search;
mod states;
mod step;
mod table;

use crate::calls::{Differs, Found, CHAIN_ROOM, CHART_ROOM, LIST_ROOM, WORK_ROOM};
use crate::ending;
use crate::implementation::Implementation;
use crate::refusal::{without_place, Refusal, NO_ENDING, RANGE, SHORT};
use held::Held;
use rules::Rules;
use search::Search;
use step::Stepper;
use table::{Row, Table};

/// A search that keeps all it finds out, or as much as fits.
enum Finder {
    Free(Box<Search>),
    Held(Box<Held>),
}

pub struct Engine {
    rules: Rules,
    rows: Vec<Row>,
    other: Vec<Row>,
    stepper: Stepper,
    finder: Finder,
    state: Table,
    result: Table,
}

impl Engine {
    #[allow(clippy::new_without_default)]
    pub fn new() -> Engine {
        Engine::with(Finder::Free(Box::new(Search::new())))
    }

    /// An engine whose searches keep at most so many bytes of states and of what is known of them.
    pub fn held(bytes: usize) -> Engine {
        Engine::with(Finder::Held(Box::new(Held::new(bytes))))
    }

    fn with(finder: Finder) -> Engine {
        Engine {
            rules: Rules::default(),
            rows: Vec::new(),
            other: Vec::new(),
            stepper: Stepper::new(),
            finder,
            state: Table::new(),
            result: Table::new(),
        }
    }

    /// How many steps the last Explained, Search or `ending` made.
    pub fn steps(&self) -> u64 {
        match &self.finder {
            Finder::Free(search) => search.steps,
            Finder::Held(search) => search.steps,
        }
    }

    /// Search under limits already checked: the length of the ending and the author's utility before and after.
    fn find(&mut self, story: usize, foresight: usize, nesting: usize) -> Result<Found, Refusal> {
        let found = match &mut self.finder {
            Finder::Free(search) => search.find(&self.rules, story, foresight, nesting),
            Finder::Held(search) => search.find(&self.rules, story, foresight, nesting),
        };
        let [length, before, after] = found.ok_or(without_place(NO_ENDING))?;
        Ok(Found { length, before, after })
    }

    /// A call begins.
    fn no_steps(&mut self) {
        match &mut self.finder {
            Finder::Free(search) => search.steps = 0,
            Finder::Held(search) => search.steps = 0,
        }
    }

    fn list(&self) -> &[u8; 8] {
        match &self.finder {
            Finder::Free(search) => &search.list,
            Finder::Held(search) => &search.list,
        }
    }

    /// Writes a state's chart and gives its length.
    fn write(&self, state: &Table, result: &mut [u8]) -> usize {
        let (fluents, characters) = (self.rules.fluents, self.rules.characters);
        result[0] = state.count as u8;
        let width = fluents + characters;
        for (row, bytes) in state.rows().iter().zip(result[1..].chunks_exact_mut(width)) {
            bytes[..fluents].copy_from_slice(&row.0[..fluents]);
            for character in 0..characters {
                bytes[fluents + character] = row.belief(character) as u8 + 1;
            }
        }
        1 + state.count * width
    }
}

impl Implementation for Engine {
    fn start(&mut self, pack: &[u8], result: &mut [u8], work: &mut [u8]) -> Result<usize, Refusal> {
        compile::pack(&mut self.rules, pack)?;
        lent(result.len() >= CHART_ROOM && work.len() >= WORK_ROOM)?;
        work[..WORK_ROOM].fill(0);
        self.stepper.state(&self.rules, &self.rules.start, 0, &mut self.state);
        Ok(self.write(&self.state, result))
    }

    fn query(&mut self, pack: &[u8], chart: &[u8], chain: &[u8], fluent: u64, work: &mut [u8]) -> Result<u8, Refusal> {
        compile::pack(&mut self.rules, pack)?;
        reader::chart(&self.rules, chart, &mut self.rows)?;
        lent(work.len() >= WORK_ROOM)?;
        let characters = self.rules.characters;
        in_range(fluent < self.rules.fluents as u64 && chain.iter().all(|&c| (c as usize) < characters))?;
        work[..WORK_ROOM].fill(0);
        let end = chain.iter().fold(0, |row: usize, &c| self.rows[row].belief(c as usize));
        Ok(self.rows[end].value(fluent as u8))
    }

    fn compare(
        &mut self,
        pack: &[u8],
        first: &[u8],
        second: &[u8],
        result: &mut [u8],
        work: &mut [u8],
    ) -> Result<Option<Differs>, Refusal> {
        compile::pack(&mut self.rules, pack)?;
        reader::chart(&self.rules, first, &mut self.rows)?;
        reader::chart(&self.rules, second, &mut self.other)?;
        lent(result.len() >= CHAIN_ROOM && work.len() >= WORK_ROOM)?;
        work[..WORK_ROOM].fill(0);
        Ok(compare::difference(&self.rows, &self.other, &self.rules, result))
    }

    fn step(
        &mut self,
        pack: &[u8],
        chart: &[u8],
        action: u64,
        result: &mut [u8],
        work: &mut [u8],
    ) -> Result<usize, Refusal> {
        compile::pack(&mut self.rules, pack)?;
        reader::chart(&self.rules, chart, &mut self.rows)?;
        lent(result.len() >= CHART_ROOM && work.len() >= WORK_ROOM)?;
        in_range(action < self.rules.actions.len() as u64)?;
        work[..WORK_ROOM].fill(0);
        self.stepper.state(&self.rules, &self.rows, 0, &mut self.state);
        let stepped = self.stepper.step(&self.rules, &self.state, action as usize, &mut self.result);
        stepped.map_err(without_place)?;
        Ok(self.write(&self.result, result))
    }

    fn explained(
        &mut self,
        pack: &[u8],
        chart: &[u8],
        character: u64,
        action: u64,
        foresight: u64,
        nesting: u64,
        work: &mut [u8],
    ) -> Result<bool, Refusal> {
        self.no_steps();
        compile::pack(&mut self.rules, pack)?;
        reader::chart(&self.rules, chart, &mut self.rows)?;
        lent(work.len() >= WORK_ROOM)?;
        in_range(character < self.rules.characters as u64 && action < self.rules.actions.len() as u64)?;
        in_range((1..=6).contains(&foresight) && nesting <= 3)?;
        work[..WORK_ROOM].fill(0);
        let (deed, limits) = ((character as usize, action as usize), (foresight as usize, nesting as usize));
        Ok(match &mut self.finder {
            Finder::Free(search) => search.explains(&self.rules, &self.rows, deed, limits),
            Finder::Held(search) => search.explains(&self.rules, &self.rows, deed, limits),
        })
    }

    fn search(
        &mut self,
        pack: &[u8],
        story: u64,
        foresight: u64,
        nesting: u64,
        result: &mut [u8],
        work: &mut [u8],
    ) -> Result<Found, Refusal> {
        self.no_steps();
        compile::pack(&mut self.rules, pack)?;
        lent(result.len() >= LIST_ROOM && work.len() >= WORK_ROOM)?;
        in_range((1..=8).contains(&story) && (1..=6).contains(&foresight) && nesting <= 3)?;
        work[..WORK_ROOM].fill(0);
        let found = self.find(story as usize, foresight as usize, nesting as usize)?;
        result[..found.length].copy_from_slice(&self.list()[..found.length]);
        Ok(found)
    }

    fn ending(&mut self, pack: &[u8]) -> String {
        self.no_steps();
        let found = compile::pack(&mut self.rules, pack)
            .and_then(|()| self.find(ending::STORY, ending::FORESIGHT, ending::NESTING));
        ending::lines(found.map(|found| (&self.list()[..found.length], found.before, found.after)))
    }
}

fn lent(enough: bool) -> Result<(), Refusal> {
    if enough {
        Ok(())
    } else {
        Err(without_place(SHORT))
    }
}

fn in_range(there: bool) -> Result<(), Refusal> {
    if there {
        Ok(())
    } else {
        Err(without_place(RANGE))
    }
}
