//! The search over numbered states. Steps, beliefs, utilities and verdicts are worked out once for each state.

use super::rules::Rules;
use super::states::{Id, States, NOWHERE, UNKNOWN};
use super::step::Stepper;
use super::table::{Row, Table};

const NO: u8 = 1;
const YES: u8 = 2;

pub struct Search {
    stepper: Stepper,
    states: States,
    foresight: usize,
    /// The state whose rows are in `here`.
    loaded: Id,
    here: Table,
    result: Table,
    pub list: [u8; 8],
    pub steps: u64,
}

impl Search {
    pub fn new() -> Search {
        Search {
            stepper: Stepper::new(),
            states: States::default(),
            foresight: 0,
            loaded: UNKNOWN,
            here: Table::new(),
            result: Table::new(),
            list: [0; 8],
            steps: 0,
        }
    }

    /// Forgets what was, and numbers the state of a table.
    fn begin(&mut self, rules: &Rules, rows: &[Row], foresight: usize) -> Id {
        self.states.begin(rules);
        (self.foresight, self.loaded, self.steps) = (foresight, UNKNOWN, 0);
        self.stepper.state(rules, rows, 0, &mut self.result);
        self.states.intern(&self.result)
    }

    pub fn explains(
        &mut self,
        rules: &Rules,
        rows: &[Row],
        (character, action): (usize, usize),
        (foresight, nesting): (usize, usize),
    ) -> bool {
        let state = self.begin(rules, rows, foresight);
        self.explained(rules, character, action, state, nesting)
    }

    /// The length of the ending, which is then in the list, and the author's utility before and after.
    pub fn find(&mut self, rules: &Rules, story: usize, foresight: usize, nesting: usize) -> Option<[usize; 3]> {
        let start = self.begin(rules, &rules.start, foresight);
        let length = (1..=story).find(|&length| self.ending(rules, start, length, nesting))?;
        Some([length, self.utility(rules, start, 0) as usize, self.after(rules, start, length) as usize])
    }

    #[inline]
    fn load(&mut self, state: Id) {
        if self.loaded != state {
            self.here.copy(self.states.rows(state));
            self.loaded = state;
        }
    }

    /// The state that an action leaves, or `NOWHERE`.
    fn next(&mut self, rules: &Rules, state: Id, action: usize) -> Id {
        let at = self.states.action(state, action);
        if self.states.next[at] == UNKNOWN {
            self.load(state);
            self.steps += 1;
            let next = match self.stepper.step(rules, &self.here, action, &mut self.result) {
                Ok(()) => self.states.intern(&self.result),
                Err(_) => NOWHERE,
            };
            self.states.next[at] = next;
        }
        self.states.next[at]
    }

    /// Whether an action may yet turn out playable: its condition holds, as far as no more is known.
    fn allowed(&mut self, rules: &Rules, state: Id, action: usize) -> bool {
        let at = self.states.action(state, action);
        if self.states.next[at] == UNKNOWN {
            self.load(state);
            if !rules.holds(rules.actions[action].condition, &self.here.rows, 0) {
                self.states.next[at] = NOWHERE;
            }
        }
        self.states.next[at] != NOWHERE
    }

    fn belief(&mut self, rules: &Rules, state: Id, character: usize) -> Id {
        let at = self.states.character(state, character);
        if self.states.beliefs[at] == UNKNOWN {
            self.stepper.belief(rules, self.states.rows(state), character, &mut self.result);
            self.states.beliefs[at] = self.states.intern(&self.result);
        }
        self.states.beliefs[at]
    }

    fn utility(&mut self, rules: &Rules, state: Id, who: usize) -> u32 {
        let at = self.states.whose(state, who);
        if self.states.utilities[at] == UNKNOWN {
            self.load(state);
            self.states.utilities[at] = rules.utility(who, &self.here.rows);
        }
        self.states.utilities[at]
    }

    /// Whether a last action is playable and ends above. Where no rule above can hold on the values that the action
    /// leaves, no step is made.
    fn ends_above(&mut self, rules: &Rules, state: Id, action: usize, who: usize, above: u32) -> bool {
        if !self.allowed(rules, state, action) {
            return false;
        }
        if self.states.next[self.states.action(state, action)] == UNKNOWN {
            self.load(state);
            let mut row = self.here.rows[0];
            rules.write(rules.actions[action].effects.writes[0], &mut row);
            if !rules.could_exceed(who, above, &row) {
                return false;
            }
        }
        let next = self.next(rules, state, action);
        next != NOWHERE && self.utility(rules, next, who) > above
    }

    fn explained(&mut self, rules: &Rules, character: usize, action: usize, state: Id, nesting: usize) -> bool {
        if nesting == 0 {
            return false;
        }
        let belief = self.belief(rules, state, character);
        let at = self.states.verdict(belief, character, action, nesting);
        if self.states.verdicts[at] == 0 {
            let next = self.next(rules, belief, action);
            let yes = next != NOWHERE && {
                let above = self.utility(rules, belief, character + 1);
                self.within(rules, character, above, next, self.foresight - 1, nesting - 1)
            };
            self.states.verdicts[at] = if yes { YES } else { NO };
        }
        self.states.verdicts[at] == YES
    }

    /// Whether some list of at most `left` actions, each explained to its consenters other than the character, ends
    /// above.
    fn within(&mut self, rules: &Rules, character: usize, above: u32, state: Id, left: usize, nesting: usize) -> bool {
        if self.utility(rules, state, character + 1) > above {
            return true;
        }
        if left == 0 {
            return false;
        }
        let hope = self.states.hope(state, character, nesting, left);
        if above >= self.states.hopeless[hope] {
            return false;
        }
        let others = !(1u8 << character);
        for action in 0..rules.actions.len() {
            let asked = rules.actions[action].consenters & others;
            if left == 1 {
                if self.ends_above(rules, state, action, character + 1, above)
                    && self.consented(rules, asked, action, state, nesting)
                {
                    return true;
                }
                continue;
            }
            if !self.allowed(rules, state, action) || !self.consented(rules, asked, action, state, nesting) {
                continue;
            }
            let next = self.next(rules, state, action);
            // A step that changes nothing can be left out of a list.
            if next != NOWHERE && next != state && self.within(rules, character, above, next, left - 1, nesting) {
                return true;
            }
        }
        self.states.hopeless[hope] = above;
        false
    }

    fn consented(&mut self, rules: &Rules, asked: u8, action: usize, state: Id, nesting: usize) -> bool {
        (0..rules.characters).all(|c| asked >> c & 1 == 0 || self.explained(rules, c, action, state, nesting))
    }

    /// The earliest ending of exactly `length` actions goes to the list; says whether there is one.
    fn ending(&mut self, rules: &Rules, start: Id, length: usize, nesting: usize) -> bool {
        let above = self.utility(rules, start, 0);
        self.extend(rules, above, start, length, length, nesting)
    }

    fn extend(&mut self, rules: &Rules, above: u32, state: Id, left: usize, length: usize, nesting: usize) -> bool {
        if self.states.exhausted[state as usize] >> left & 1 == 1 {
            return false;
        }
        for action in 0..rules.actions.len() {
            let asked = rules.actions[action].consenters;
            self.list[length - left] = action as u8;
            let found = if left == 1 {
                self.ends_above(rules, state, action, 0, above) && self.consented(rules, asked, action, state, nesting)
            } else {
                self.allowed(rules, state, action) && self.consented(rules, asked, action, state, nesting) && {
                    let next = self.next(rules, state, action);
                    next != NOWHERE && self.extend(rules, above, next, left - 1, length, nesting)
                }
            };
            if found {
                self.list[length - left] = action as u8;
                return true;
            }
        }
        self.states.exhausted[state as usize] |= 1 << left;
        false
    }

    /// The author's utility at the end of the list.
    fn after(&mut self, rules: &Rules, start: Id, length: usize) -> u32 {
        let mut state = start;
        for i in 0..length {
            state = self.next(rules, state, self.list[i] as usize);
        }
        self.utility(rules, state, 0)
    }
}
