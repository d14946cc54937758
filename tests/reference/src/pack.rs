//! A story pack: what it holds, and its reader.

use crate::graph::Node;
use crate::number::Numbers;
use crate::refusal::{Refusal, LIMIT};

pub const LONGEST_PACK: usize = 8_192;
pub const MOST_NODES: usize = 32;

pub struct Pack {
    pub characters: usize,
    /// Each fluent's domain size.
    pub domains: Vec<usize>,
    pub nodes: Vec<Node>,
    pub actions: Vec<Action>,
    pub triggers: Vec<Trigger>,
    /// The utilities ("worths"): the author's first, then each character's.
    pub utilities: Vec<Vec<Rule>>,
}

pub struct Action {
    pub condition: Condition,
    pub effects: Vec<Effect>,
    pub consenters: Vec<usize>,
    /// For each character, when it observes the action.
    pub observations: Vec<Condition>,
}

pub struct Trigger {
    pub condition: Condition,
    pub effects: Vec<Effect>,
}

pub struct Rule {
    pub condition: Condition,
    pub worth: usize,
}

/// `whom` is 0 for the state itself and character + 1 for that character's belief.
pub struct Effect {
    pub whom: usize,
    pub fluent: usize,
    pub value: u8,
}

/// It holds if some alternative has all its tests true.
pub struct Condition {
    pub alternatives: Vec<Vec<Test>>,
}

pub struct Test {
    pub chain: Vec<usize>,
    pub kind: usize,
    pub fluent: usize,
    pub value: u8,
}

/// Reads a pack. The length is tested before anything is read.
pub fn read(bytes: &[u8]) -> Result<Pack, Refusal> {
    if bytes.len() > LONGEST_PACK {
        return Err(Refusal { number: LIMIT, place: 0 });
    }
    let numbers = &mut Numbers::new(bytes, 0);
    numbers.within(1, 1)?;
    let characters = numbers.within(1, 6)?;
    let fluents = numbers.within(1, 24)?;
    let domains = times(fluents, || numbers.within(1, 128))?;
    let nodes = nodes(numbers, characters, &domains)?;
    let mut body = Body { numbers, characters, domains: &domains };
    let actions = body.several(32, Body::action)?;
    let triggers = body.several(16, Body::trigger)?;
    let utilities = times(1 + characters, || body.several(8, Body::rule))?;
    numbers.end()?;
    Ok(Pack { characters, domains, nodes, actions, triggers, utilities })
}

/// The node part, which is also the whole of a chart: a count, then each node's values and beliefs.
pub fn nodes(numbers: &mut Numbers, characters: usize, domains: &[usize]) -> Result<Vec<Node>, Refusal> {
    let count = numbers.within(1, MOST_NODES)?;
    times(count, || {
        let values = domains.iter().map(|&size| Ok(numbers.one_of(size)? as u8)).collect::<Result<_, _>>()?;
        let beliefs = times(characters, || numbers.belief(count))?;
        Ok(Node { values, beliefs })
    })
}

/// Reads `count` things, stopping at the first refusal.
fn times<T>(count: usize, mut read: impl FnMut() -> Result<T, Refusal>) -> Result<Vec<T>, Refusal> {
    (0..count).map(|_| read()).collect()
}

/// What follows the nodes, with what its numbers are checked against.
struct Body<'n, 'b> {
    numbers: &'n mut Numbers<'b>,
    characters: usize,
    domains: &'n [usize],
}

impl Body<'_, '_> {
    /// A count from 0 to `most`, then as many things.
    fn several<T>(&mut self, most: usize, read: fn(&mut Self) -> Result<T, Refusal>) -> Result<Vec<T>, Refusal> {
        let count = self.numbers.within(0, most)?;
        times(count, || read(self))
    }

    fn action(&mut self) -> Result<Action, Refusal> {
        Ok(Action {
            condition: self.condition()?,
            effects: self.several(16, Body::effect)?,
            consenters: self.consenters()?,
            observations: times(self.characters, || self.condition())?,
        })
    }

    fn trigger(&mut self) -> Result<Trigger, Refusal> {
        Ok(Trigger { condition: self.condition()?, effects: self.several(16, Body::effect)? })
    }

    fn rule(&mut self) -> Result<Rule, Refusal> {
        Ok(Rule { condition: self.condition()?, worth: self.numbers.any()? })
    }

    fn condition(&mut self) -> Result<Condition, Refusal> {
        Ok(Condition { alternatives: self.several(8, |body| body.several(8, Body::test))? })
    }

    fn test(&mut self) -> Result<Test, Refusal> {
        let length = self.numbers.within(0, 4)?;
        let chain = times(length, || self.numbers.one_of(self.characters))?;
        let kind = self.numbers.one_of(3)?;
        let (fluent, value) = self.fluent_and_value()?;
        Ok(Test { chain, kind, fluent, value })
    }

    fn effect(&mut self) -> Result<Effect, Refusal> {
        let whom = self.numbers.one_of(self.characters + 1)?;
        let (fluent, value) = self.fluent_and_value()?;
        Ok(Effect { whom, fluent, value })
    }

    /// The value must be in the fluent's domain, whatever the kind of the test.
    fn fluent_and_value(&mut self) -> Result<(usize, u8), Refusal> {
        let fluent = self.numbers.one_of(self.domains.len())?;
        let value = self.numbers.one_of(self.domains[fluent])?;
        Ok((fluent, value as u8))
    }

    /// Up to 6 whatever the number of characters.
    fn consenters(&mut self) -> Result<Vec<usize>, Refusal> {
        let count = self.numbers.within(0, 6)?;
        let mut last = None;
        times(count, || {
            last = Some(self.numbers.consenter(self.characters, last)?);
            Ok(last.unwrap())
        })
    }
}
