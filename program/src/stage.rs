//! A story before the proved planner: the calls, with the story's own numbers.

use pirwodd::{Action, Character, Chart, Comparison, Ending, Fluent, Limits, Planner, Refusal};
use story::{Names, Story};

use crate::act;
use crate::list;
use crate::said::Refused;

pub struct Stage {
    pub planner: Planner,
    pub story: Story,
    pub pack: Vec<u8>,
    /// The start's chart.
    pub start: Chart,
}

impl Stage {
    pub fn names(&self) -> &Names {
        &self.story.names
    }

    /// Query: the value of a fact where a chain of characters leads.
    pub fn value(&mut self, chart: &[u8], chain: &[usize], fact: usize) -> Result<usize, Refusal> {
        let chain: Vec<Character> = chain.iter().map(|&character| Character(character as u8)).collect();
        Ok(self.planner.query(&self.pack, chart, &chain, Fluent(fact as u8))?.into())
    }

    pub fn step(&mut self, chart: &[u8], action: usize) -> Result<Chart, Refusal> {
        self.planner.step(&self.pack, chart, Action(action as u8))
    }

    /// Explained: whether a character has a reason for an action.
    pub fn has_reason(&mut self, chart: &[u8], who: usize, action: usize, limits: Limits) -> Result<bool, Refusal> {
        let (character, action) = (Character(who as u8), Action(action as u8));
        self.planner.explained(&self.pack, chart, character, action, limits.foresight, limits.nesting)
    }

    pub fn search(&mut self, limits: Limits) -> Result<Ending, Refusal> {
        self.planner.search(&self.pack, limits)
    }

    pub fn compare(&mut self, first: &[u8], second: &[u8]) -> Result<Comparison, Refusal> {
        self.planner.compare(&self.pack, first, second)
    }

    /// The actions of a list, by number or title.
    pub fn listed(&self, list: &str) -> Result<Vec<usize>, Refused> {
        list::actions(&self.names().actions, list)
    }

    /// The state that a list of actions leaves, reasons or not.
    pub fn after(&mut self, list: &str) -> Result<Chart, Refused> {
        let mut chart = self.start.clone();
        for (i, action) in self.listed(list)?.into_iter().enumerate() {
            chart = match self.step(&chart, action) {
                Ok(after) => after,
                Err(refusal) => {
                    let title = &self.names().actions[action];
                    let lead = format!("action {} of the list, '{title}'", i + 1);
                    let why = act::unplayable(self, &chart, action, refusal)?;
                    return Err(Refused::new(format!("{lead}\n{why}")));
                }
            };
        }
        Ok(chart)
    }
}
