//! The search once more with a memory of limited size. Since the number of a state is good only until something is
//! forgotten, the states that a search stands on are tables on a stack, and are looked for by what is in them. What is
//! done for the state in one place of the stack uses the places behind it.
//!
//! As in the search without a limit, verdicts are kept by the state that is believed, and what is known of the author's
//! lists by state; steps only until something is forgotten. Beliefs and utilities take no step and are worked out anew.

use super::memory::{Memory, NONE};
use super::rules::Rules;
use super::states::hash;
use super::step::Stepper;
use super::table::{Row, Table};

/// The start, 8 actions, and 3 times a belief and 6 actions.
const PLACES: usize = 1 + 8 + 3 * 7;

const NO: u16 = 1;
const YES: u16 = 2;
/// The value of a step that isn't playable.
const NOWHERE: u16 = NONE;

/// What took fewer steps than this to find is not learnt once something has been forgotten.
const WORTH_KEEPING: u64 = 4;

/// What a fact is about: above these bits its kind, below them for whom and what.
const EXHAUSTED: u16 = 0;
const STEP: u16 = 1 << 12;
const VERDICTS: u16 = 2 << 12;
const HOPELESS: u16 = 3 << 12;

struct Place {
    table: Table,
    hash: u64,
}

pub struct Held {
    stepper: Stepper,
    memory: Memory,
    places: Vec<Place>,
    foresight: usize,
    /// The author's utility at the end of the list.
    after: u32,
    pub list: [u8; 8],
    pub steps: u64,
}

impl Held {
    pub fn new(bytes: usize) -> Held {
        let place = || Place { table: Table::new(), hash: 0 };
        Held {
            stepper: Stepper::new(),
            memory: Memory::new(bytes),
            places: (0..PLACES).map(|_| place()).collect(),
            foresight: 0,
            after: 0,
            list: [0; 8],
            steps: 0,
        }
    }

    /// Forgets what was, and puts the state of a table at the bottom of the stack.
    fn begin(&mut self, rules: &Rules, rows: &[Row], foresight: usize) {
        self.memory.begin(rules.fluents + rules.characters);
        (self.foresight, self.steps) = (foresight, 0);
        self.stepper.state(rules, rows, 0, &mut self.places[0].table);
        self.moved(0);
    }

    pub fn explains(
        &mut self,
        rules: &Rules,
        rows: &[Row],
        (character, action): (usize, usize),
        (foresight, nesting): (usize, usize),
    ) -> bool {
        self.begin(rules, rows, foresight);
        self.explained(rules, character, action, 0, nesting)
    }

    /// The length of the ending, which is then in the list, and the author's utility before and after.
    pub fn find(&mut self, rules: &Rules, story: usize, foresight: usize, nesting: usize) -> Option<[usize; 3]> {
        self.begin(rules, &rules.start, foresight);
        let above = self.utility(rules, 0, 0);
        let mut lengths = 1..=story;
        let length = lengths.find(|&length| self.extend(rules, above, 0, length, length, nesting))?;
        Some([length, above as usize, self.after as usize])
    }

    /// Another state has come to a place.
    fn moved(&mut self, place: usize) {
        self.places[place].hash = hash(self.places[place].table.rows());
    }

    /// Learns a fact about the state at a place, that took so many steps to find.
    fn learn(&mut self, place: usize, about: u16, value: u16, steps: u64) {
        if self.memory.sifted && steps < WORTH_KEEPING {
            return;
        }
        let Place { table, hash } = &self.places[place];
        self.memory.room(1, table.count);
        let id = self.memory.intern(table.rows(), *hash);
        self.memory.put(id, about, value, rank(steps));
    }

    fn known(&mut self, place: usize, about: u16) -> Option<u16> {
        let Place { table, hash } = &self.places[place];
        let id = self.memory.find(table.rows(), *hash)?;
        self.memory.get(id, about)
    }

    /// Learns where an action leads, as long as nothing has been forgotten.
    fn learn_step(&mut self, place: usize, action: usize, playable: bool) {
        let [here, left] = [place, place + 1].map(|place| &self.places[place]);
        self.memory.room(2, here.table.count + left.table.count);
        if !self.memory.sifted {
            let next = if playable { self.memory.intern(left.table.rows(), left.hash) } else { NOWHERE };
            let id = self.memory.intern(here.table.rows(), here.hash);
            self.memory.put(id, STEP | action as u16, next, 0);
        }
    }

    /// Puts the state that an action leaves to the next place; says whether it is playable.
    fn next(&mut self, rules: &Rules, place: usize, action: usize) -> bool {
        match self.known(place, STEP | action as u16) {
            None => self.step(rules, place, action),
            Some(NOWHERE) => false,
            Some(next) => {
                self.places[place + 1].table.copy(self.memory.rows(next));
                self.moved(place + 1);
                true
            }
        }
    }

    /// The same where it isn't known.
    fn step(&mut self, rules: &Rules, place: usize, action: usize) -> bool {
        self.steps += 1;
        let (here, behind) = self.places.split_at_mut(place + 1);
        let playable = self.stepper.step(rules, &here[place].table, action, &mut behind[0].table).is_ok();
        if playable {
            self.moved(place + 1);
        }
        if !self.memory.sifted {
            self.learn_step(place, action, playable);
        }
        playable
    }

    fn allowed(&self, rules: &Rules, place: usize, action: usize) -> bool {
        rules.holds(rules.actions[action].condition, &self.places[place].table.rows, 0)
    }

    fn utility(&self, rules: &Rules, place: usize, who: usize) -> u32 {
        rules.utility(who, &self.places[place].table.rows)
    }

    /// Puts what a character believes to the next place.
    fn believe(&mut self, rules: &Rules, place: usize, character: usize) {
        let (here, behind) = self.places.split_at_mut(place + 1);
        self.stepper.belief(rules, here[place].table.rows(), character, &mut behind[0].table);
        self.moved(place + 1);
    }

    /// The utility that a last action leaves, if it is playable and that is above. Where no rule above can hold on the
    /// values that the action leaves, no step is made.
    fn last(&mut self, rules: &Rules, place: usize, action: usize, who: usize, above: u32) -> Option<u32> {
        if !self.allowed(rules, place, action) {
            return None;
        }
        let mut row = self.places[place].table.rows[0];
        rules.write(rules.actions[action].effects.writes[0], &mut row);
        if !rules.could_exceed(who, above, &row) || !self.next(rules, place, action) {
            return None;
        }
        Some(self.utility(rules, place + 1, who)).filter(|&left| left > above)
    }

    fn explained(&mut self, rules: &Rules, character: usize, action: usize, place: usize, nesting: usize) -> bool {
        if nesting == 0 {
            return false;
        }
        self.believe(rules, place, character);
        let (about, shift) = verdict(character, action, nesting);
        if let Some(yes) = self.judged(place + 1, character, action, nesting) {
            return yes;
        }
        let before = self.steps;
        let yes = self.next(rules, place + 1, action) && {
            let above = self.utility(rules, place + 1, character + 1);
            self.within(rules, character, above, place + 2, self.foresight - 1, nesting - 1)
        };
        let others = self.known(place + 1, about).unwrap_or(0);
        self.learn(place + 1, about, others | if yes { YES } else { NO } << shift, self.steps - before);
        yes
    }

    /// Whether some list of at most `left` actions, each explained to its consenters other than the character, ends
    /// above.
    fn within(
        &mut self,
        rules: &Rules,
        character: usize,
        above: u32,
        place: usize,
        left: usize,
        nesting: usize,
    ) -> bool {
        if self.utility(rules, place, character + 1) > above {
            return true;
        }
        if left == 0 {
            return false;
        }
        let about = HOPELESS | (character << 5 | nesting << 3 | left) as u16;
        if self.hopeless(place, character, above, left, nesting) {
            return false;
        }
        let before = self.steps;
        let found = (0..rules.actions.len()).any(|action| {
            let asked = rules.actions[action].consenters & !(1u8 << character);
            if left == 1 {
                return self.last(rules, place, action, character + 1, above).is_some()
                    && self.consented(rules, asked, action, place, nesting);
            }
            // A step that changes nothing can be left out of a list.
            self.allowed(rules, place, action)
                && self.consented(rules, asked, action, place, nesting)
                && self.next(rules, place, action)
                && self.places[place].table.rows() != self.places[place + 1].table.rows()
                && self.within(rules, character, above, place + 1, left - 1, nesting)
        });
        if !found {
            self.learn(place, about, above as u16, self.steps - before);
        }
        found
    }

    /// The verdict on an action in a belief, if it is known: what is explained stays so under a higher nesting limit,
    /// and what is not under a lower one.
    fn judged(&mut self, place: usize, character: usize, action: usize, nesting: usize) -> Option<bool> {
        let Place { table, hash } = &self.places[place];
        let id = self.memory.find(table.rows(), *hash)?;
        for other in 1..=3 {
            let (about, shift) = verdict(character, action, other);
            match self.memory.get(id, about).unwrap_or(0) >> shift & 3 {
                YES if other <= nesting => return Some(true),
                NO if other >= nesting => return Some(false),
                _ => {}
            }
        }
        None
    }

    /// Whether it is known that no list of so many actions ends above. What is known of longer lists, or of lists under
    /// a higher nesting limit, says it too.
    fn hopeless(&mut self, place: usize, character: usize, above: u32, left: usize, nesting: usize) -> bool {
        let Place { table, hash } = &self.places[place];
        let Some(id) = self.memory.find(table.rows(), *hash) else { return false };
        for nesting in nesting..=2 {
            for left in left..self.foresight {
                let about = HOPELESS | (character << 5 | nesting << 3 | left) as u16;
                if self.memory.get(id, about).is_some_and(|least| above >= least as u32) {
                    return true;
                }
            }
        }
        false
    }

    fn consented(&mut self, rules: &Rules, asked: u8, action: usize, place: usize, nesting: usize) -> bool {
        (0..rules.characters).all(|c| asked >> c & 1 == 0 || self.explained(rules, c, action, place, nesting))
    }

    /// The earliest list of exactly `left` more actions that makes an ending goes to the list; says whether there is
    /// one.
    fn extend(&mut self, rules: &Rules, above: u32, place: usize, left: usize, length: usize, nesting: usize) -> bool {
        if self.known(place, EXHAUSTED).is_some_and(|lengths| lengths >> left & 1 == 1) {
            return false;
        }
        let before = self.steps;
        for action in 0..rules.actions.len() {
            let asked = rules.actions[action].consenters;
            let found = if left == 1 {
                let after = self.last(rules, place, action, 0, above);
                self.after = after.unwrap_or(self.after);
                after.is_some() && self.consented(rules, asked, action, place, nesting)
            } else {
                self.allowed(rules, place, action)
                    && self.consented(rules, asked, action, place, nesting)
                    && self.next(rules, place, action)
                    && self.extend(rules, above, place + 1, left - 1, length, nesting)
            };
            if found {
                self.list[length - left] = action as u8;
                return true;
            }
        }
        let others = self.known(place, EXHAUSTED).unwrap_or(0);
        self.learn(place, EXHAUSTED, others | 1 << left, self.steps - before);
        false
    }
}

/// Verdicts about eight actions are one fact: what it is about, and where in it two bits are.
fn verdict(character: usize, action: usize, nesting: usize) -> (u16, usize) {
    (VERDICTS | (character << 4 | nesting << 2 | action >> 3) as u16, 2 * (action & 7))
}

/// Above 0, which is the rank of a step.
fn rank(steps: u64) -> u8 {
    (65 - steps.leading_zeros()) as u8
}
