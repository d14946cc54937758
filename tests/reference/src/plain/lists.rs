//! Steps, explanations and endings by the definitions: every list of action numbers is written down and judged, and
//! nothing is remembered from one to the next.

use super::places::{Place, Places};
use crate::refusal::{CONDITION, ROUNDS, STATES};

/// A question that takes too long this way.
pub struct TooLong;

/// How much may be spent on one question.
const MOST_PLACES: usize = 200;
const MOST_STEPS: usize = 5_000;
const MOST_LOOKS: usize = 50_000;

pub struct Lists<'a> {
    pub places: Places<'a>,
    pub foresight: usize,
    steps: usize,
}

impl<'a> Lists<'a> {
    pub fn new(places: Places<'a>, foresight: usize) -> Self {
        Lists { places, foresight, steps: 0 }
    }

    fn reached(&mut self, place: Place) -> Result<Vec<Place>, TooLong> {
        if self.places.count() > 50 * MOST_PLACES {
            return Err(TooLong);
        }
        self.places.reached(place, MOST_PLACES).ok_or(TooLong)
    }

    /// One place for each different state that chains lead to, in the order met; at most one more than 32.
    pub fn different(&mut self, place: Place) -> Result<Vec<Place>, TooLong> {
        let mut found: Vec<Place> = Vec::new();
        for next in self.reached(place)? {
            if !found.iter().any(|&other| self.places.same(other, next)) {
                found.push(next);
            }
            if found.len() > 32 {
                break;
            }
        }
        Ok(found)
    }

    /// The place that an action leaves, or 10, 11 or 12.
    pub fn step(&mut self, from: Place, action: usize) -> Result<Result<Place, u8>, TooLong> {
        self.steps += 1;
        if self.steps > MOST_STEPS || self.places.looks > MOST_LOOKS {
            return Err(TooLong);
        }
        let pack = self.places.pack;
        if !self.places.holds(&pack.actions[action].condition, from) {
            return Ok(Err(CONDITION));
        }
        let mut state = self.places.acted(action, from);
        let mut rounds = 0;
        loop {
            if self.different(state)?.len() > 32 {
                return Ok(Err(STATES));
            }
            let still = self.reached(state)?.iter().all(|&place| self.places.fires(place).is_none());
            if still {
                return Ok(Ok(state));
            }
            if rounds == 16 {
                return Ok(Err(ROUNDS));
            }
            state = self.places.round(state);
            rounds += 1;
        }
    }

    /// The states before each action of a list and the one at its end, if it is playable.
    fn states(&mut self, from: Place, list: &[usize]) -> Result<Option<Vec<Place>>, TooLong> {
        let mut states = vec![from];
        for &action in list {
            match self.step(states[states.len() - 1], action)? {
                Ok(next) => states.push(next),
                Err(_) => return Ok(None),
            }
        }
        Ok(Some(states))
    }

    /// Explained(c, a, s, e).
    pub fn explained(&mut self, c: usize, a: usize, s: Place, e: usize) -> Result<bool, TooLong> {
        if e == 0 {
            return Ok(false);
        }
        let belief = self.places.belief(s, c);
        for length in 1..=self.foresight {
            for rest in lists(self.places.pack.actions.len(), length - 1) {
                let list = [vec![a], rest].concat();
                if self.explains(c, &list, belief, e)? {
                    return Ok(true);
                }
            }
        }
        Ok(false)
    }

    /// Whether a list explains its first action to c, whose belief is given.
    fn explains(&mut self, c: usize, list: &[usize], belief: Place, e: usize) -> Result<bool, TooLong> {
        let Some(states) = self.states(belief, list)? else { return Ok(false) };
        let end = states[list.len()];
        if self.places.utility(c + 1, end) <= self.places.utility(c + 1, belief) {
            return Ok(false);
        }
        for i in 1..list.len() {
            for &consenter in &self.places.pack.actions[list[i]].consenters {
                if consenter != c && !self.explained(consenter, list[i], states[i], e - 1)? {
                    return Ok(false);
                }
            }
        }
        Ok(true)
    }

    /// The author's utility at the end of a list from the start, if the list is an ending.
    fn ending(&mut self, list: &[usize], start: Place, nesting: usize) -> Result<Option<usize>, TooLong> {
        let Some(states) = self.states(start, list)? else { return Ok(None) };
        let after = self.places.utility(0, states[list.len()]);
        if after <= self.places.utility(0, start) {
            return Ok(None);
        }
        for i in 0..list.len() {
            for &consenter in &self.places.pack.actions[list[i]].consenters {
                if !self.explained(consenter, list[i], states[i], nesting)? {
                    return Ok(None);
                }
            }
        }
        Ok(Some(after))
    }

    /// The first ending in the order of length, then of action numbers, and the author's utility after it.
    pub fn search(
        &mut self,
        start: Place,
        story: usize,
        nesting: usize,
    ) -> Result<Option<(Vec<usize>, usize)>, TooLong> {
        for length in 1..=story {
            for list in lists(self.places.pack.actions.len(), length) {
                if let Some(after) = self.ending(&list, start, nesting)? {
                    return Ok(Some((list, after)));
                }
            }
        }
        Ok(None)
    }
}

/// All lists of so many action numbers, in their order: the numbers of so many digits.
fn lists(actions: usize, length: usize) -> impl Iterator<Item = Vec<usize>> {
    let all = actions.pow(length as u32);
    (0..all).map(move |number| (0..length).rev().map(|digit| number / actions.pow(digit as u32) % actions).collect())
}
