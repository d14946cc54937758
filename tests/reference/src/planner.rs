//! Explanations and endings. A list is explained through its actions, and an action through a list: the two functions
//! `list` and `explained` call each other, with the remaining length and the nesting limit falling.

use std::collections::{HashMap, HashSet};

use crate::condition::utility;
use crate::happening::step;
use crate::pack::Pack;
use crate::state::State;

/// Looks for lists under one pack and one foresight limit. What it remembers depends on states alone, never on the
/// way by which they were reached, so remembering changes no answer.
pub struct Planner<'a> {
    pack: &'a Pack,
    foresight: usize,
    /// Verdicts by the belief, character, action and nesting limit.
    verdicts: HashMap<(State, usize, usize, usize), bool>,
    /// Where no list of exactly so many actions at this nesting limit reaches the goal.
    exhausted: HashSet<(State, Goal, usize, usize)>,
}

/// Whose utility must end above what. `who` is 0 for the author and character + 1 for a character.
#[derive(Clone, Copy, PartialEq, Eq, Hash)]
struct Goal {
    who: usize,
    above: usize,
}

/// An ending: its actions, and the author's utility at the start and at its end.
#[derive(Clone, PartialEq, Eq, Debug)]
pub struct Ending {
    pub actions: Vec<usize>,
    pub before: usize,
    pub after: usize,
}

impl<'a> Planner<'a> {
    pub fn new(pack: &'a Pack, foresight: usize) -> Self {
        Planner { pack, foresight, verdicts: HashMap::new(), exhausted: HashSet::new() }
    }

    fn utility(&self, who: usize, state: &State) -> usize {
        utility(&self.pack.utilities[who], state)
    }

    /// The shortest ending of 1 to `story` actions, the earliest by action numbers among those: each length in turn.
    pub fn search(&mut self, start: &State, story: usize, nesting: usize) -> Option<Ending> {
        let before = self.utility(0, start);
        let goal = Goal { who: 0, above: before };
        let actions = (1..=story).find_map(|length| self.list(goal, start, length, nesting))?;
        let end = actions.iter().fold(start.clone(), |state, &action| step(self.pack, &state, action).unwrap());
        let after = self.utility(0, &end);
        Some(Ending { actions, before, after })
    }

    /// Explained(c, a, s, e): some list of 1 to K actions beginning with a, from c's belief, ends with c's utility above
    /// that of the belief itself. Its first action is asked of nobody.
    pub fn explained(&mut self, character: usize, action: usize, state: &State, nesting: usize) -> bool {
        if nesting == 0 {
            return false;
        }
        let belief = state.belief(character);
        let question = (belief.clone(), character, action, nesting);
        if let Some(&verdict) = self.verdicts.get(&question) {
            return verdict;
        }
        let goal = Goal { who: character + 1, above: self.utility(character + 1, &belief) };
        let verdict = match step(self.pack, &belief, action) {
            Ok(next) => (0..self.foresight).any(|more| self.list(goal, &next, more, nesting - 1).is_some()),
            Err(_) => false,
        };
        self.verdicts.insert(question, verdict);
        verdict
    }

    /// The earliest list of exactly `length` actions from a state, each playable and explained at `nesting` to its
    /// consenters other than the goal's own character, that reaches the goal.
    fn list(&mut self, goal: Goal, state: &State, length: usize, nesting: usize) -> Option<Vec<usize>> {
        if length == 0 {
            let reached = self.utility(goal.who, state) > goal.above;
            return reached.then(Vec::new);
        }
        let situation = (state.clone(), goal, length, nesting);
        if self.exhausted.contains(&situation) {
            return None;
        }
        for action in 0..self.pack.actions.len() {
            let Ok(next) = step(self.pack, state, action) else { continue };
            if !self.consented(goal.who, action, state, nesting) {
                continue;
            }
            if let Some(rest) = self.list(goal, &next, length - 1, nesting) {
                return Some([vec![action], rest].concat());
            }
        }
        self.exhausted.insert(situation);
        None
    }

    /// Whether the action is explained to each of its consenters other than the one whose list this is.
    fn consented(&mut self, who: usize, action: usize, state: &State, nesting: usize) -> bool {
        let pack = self.pack;
        let mut asked = pack.actions[action].consenters.iter().filter(|&&consenter| consenter + 1 != who);
        asked.all(|&consenter| self.explained(consenter, action, state, nesting))
    }
}
