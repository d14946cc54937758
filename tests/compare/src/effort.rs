//! How many steps Explained and Search take if nothing is remembered from one list to the next, counted by walking as such
//! a search does over states that are worked out once. So calls that would take too long can be left out.

use reference::call::{Ask, Call};
use reference::chart;
use reference::condition::utility;
use reference::happening::step;
use reference::pack::{self, Pack};
use reference::state::State;
use std::collections::HashMap;

/// Calls that take more steps without memory are left out of the tests; to be raised as the library remembers more.
const MOST_STEPS: usize = 50_000;

/// Whether a test may put the call.
pub fn quick(call: &Call) -> bool {
    steps(call, MOST_STEPS).is_some()
}

/// The number of steps, or nothing where there are more than that. Calls that are refused by the checks take none.
pub fn steps(call: &Call, most: usize) -> Option<usize> {
    let Ok(pack) = pack::read(&call.pack) else { return Some(0) };
    match &call.ask {
        Ask::Explained { chart, character, action, foresight, nesting } => {
            let Ok(state) = chart::read(&pack, chart) else { return Some(0) };
            let there = *character < pack.characters as u64 && *action < pack.actions.len() as u64;
            if !there || !limits(*foresight, *nesting) {
                return Some(0);
            }
            let mut walk = Walk::new(&pack, *foresight as usize, most);
            let state = walk.number(state);
            walk.explained(*character as usize, *action as usize, state, *nesting as usize).ok()?;
            Some(walk.steps)
        }
        Ask::Search { story, foresight, nesting } if *story <= 8 && limits(*foresight, *nesting) => {
            let mut walk = Walk::new(&pack, *foresight as usize, most);
            let start = walk.number(State::new(&pack.nodes, 0));
            walk.search(start, *story as usize, *nesting as usize).ok()?;
            Some(walk.steps)
        }
        _ => Some(0),
    }
}

/// Whether K and E are limits that are taken.
fn limits(foresight: u64, nesting: u64) -> bool {
    (1..=6).contains(&foresight) && nesting <= 3
}

struct TooMany;

/// Whose utility must end above what: 0 for the author, character + 1 for a character.
#[derive(Clone, Copy)]
struct Goal {
    who: usize,
    above: usize,
}

struct Walk<'a> {
    pack: &'a Pack,
    foresight: usize,
    numbers: HashMap<State, usize>,
    states: Vec<State>,
    /// By state and action: where it leads, once it is known.
    next: HashMap<(usize, usize), Option<usize>>,
    beliefs: HashMap<(usize, usize), usize>,
    steps: usize,
    most: usize,
}

impl<'a> Walk<'a> {
    fn new(pack: &'a Pack, foresight: usize, most: usize) -> Self {
        let (numbers, next, beliefs) = (HashMap::new(), HashMap::new(), HashMap::new());
        Walk { pack, foresight, numbers, states: Vec::new(), next, beliefs, steps: 0, most }
    }

    fn number(&mut self, state: State) -> usize {
        let states = &mut self.states;
        *self.numbers.entry(state).or_insert_with_key(|state| {
            states.push(state.clone());
            states.len() - 1
        })
    }

    fn step(&mut self, state: usize, action: usize) -> Result<Option<usize>, TooMany> {
        self.steps += 1;
        if self.steps > self.most {
            return Err(TooMany);
        }
        if let Some(&next) = self.next.get(&(state, action)) {
            return Ok(next);
        }
        let next = step(self.pack, &self.states[state], action).ok().map(|next| self.number(next));
        self.next.insert((state, action), next);
        Ok(next)
    }

    fn belief(&mut self, state: usize, character: usize) -> usize {
        if let Some(&belief) = self.beliefs.get(&(state, character)) {
            return belief;
        }
        let belief = self.states[state].belief(character);
        let belief = self.number(belief);
        self.beliefs.insert((state, character), belief);
        belief
    }

    fn utility(&self, who: usize, state: usize) -> usize {
        utility(&self.pack.utilities[who], &self.states[state])
    }

    fn search(&mut self, start: usize, story: usize, nesting: usize) -> Result<bool, TooMany> {
        let goal = Goal { who: 0, above: self.utility(0, start) };
        for length in 1..=story {
            if self.completes(goal, start, length, nesting)? {
                return Ok(true);
            }
        }
        Ok(false)
    }

    /// Whether some list of exactly `left` actions reaches the goal.
    fn completes(&mut self, goal: Goal, state: usize, left: usize, nesting: usize) -> Result<bool, TooMany> {
        if left == 0 {
            return Ok(self.utility(goal.who, state) > goal.above);
        }
        for action in 0..self.pack.actions.len() {
            if let Some(next) = self.goes(goal, state, action, nesting)? {
                if self.completes(goal, next, left - 1, nesting)? {
                    return Ok(true);
                }
            }
        }
        Ok(false)
    }

    fn explained(&mut self, character: usize, action: usize, state: usize, nesting: usize) -> Result<bool, TooMany> {
        if nesting == 0 {
            return Ok(false);
        }
        let belief = self.belief(state, character);
        let Some(next) = self.step(belief, action)? else { return Ok(false) };
        let goal = Goal { who: character + 1, above: self.utility(character + 1, belief) };
        self.extends(goal, next, self.foresight - 1, nesting - 1)
    }

    /// Whether some list of at most `left` actions reaches the goal.
    fn extends(&mut self, goal: Goal, state: usize, left: usize, nesting: usize) -> Result<bool, TooMany> {
        if self.utility(goal.who, state) > goal.above {
            return Ok(true);
        }
        for action in 0..if left == 0 { 0 } else { self.pack.actions.len() } {
            if let Some(next) = self.goes(goal, state, action, nesting)? {
                if self.extends(goal, next, left - 1, nesting)? {
                    return Ok(true);
                }
            }
        }
        Ok(false)
    }

    /// Where an action leads that is explained to its consenters other than the goal's own character.
    fn goes(&mut self, goal: Goal, state: usize, action: usize, nesting: usize) -> Result<Option<usize>, TooMany> {
        let pack = self.pack;
        for &consenter in &pack.actions[action].consenters {
            if consenter + 1 != goal.who && !self.explained(consenter, action, state, nesting)? {
                return Ok(None);
            }
        }
        self.step(state, action)
    }
}
