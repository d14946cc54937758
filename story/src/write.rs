//! Packs written as bytes, with a mark where each part begins.

use crate::pack::{Condition, Effect, Pack};

/// A part of a pack, by its number: what a byte of it is about.
#[derive(Clone, Copy, PartialEq, Eq, Hash, Debug)]
pub enum Part {
    /// The version, and how many characters there are.
    Characters,
    /// How many facts there are.
    Facts,
    /// A fact's domain.
    Fact(usize),
    /// How many views there are.
    Views,
    /// A fact's value in a view.
    Value(usize, usize),
    /// A character's belief in a view.
    Belief(usize, usize),
    /// How many actions, triggers there are.
    Actions,
    Triggers,
    /// A condition: how many alternatives it has.
    Condition(Owner),
    /// An alternative of a condition: how many tests it has.
    Alternative(Owner, usize),
    /// A test in an alternative.
    Test(Owner, usize, usize),
    /// How many effects an action or a trigger has.
    Effects(Owner),
    Effect(Owner, usize),
    /// An action's consenters.
    Consenters(usize),
    /// How many rules the author (0) or a character (character + 1) has.
    Wants(usize),
    /// The worth that a rule gives.
    Worth(usize, usize),
}

/// Whose a condition is, and whose effects are.
#[derive(Clone, Copy, PartialEq, Eq, Hash, Debug)]
pub enum Owner {
    Action(usize),
    /// When a character sees an action.
    Seen(usize, usize),
    Trigger(usize),
    /// A rule of the author (0) or a character (character + 1).
    Rule(usize, usize),
}

/// A pack's bytes, and for each part the place of its first byte, rising.
pub struct Written {
    pub bytes: Vec<u8>,
    pub parts: Vec<(usize, Part)>,
}

pub fn pack(pack: &Pack) -> Written {
    let mut out = Written { bytes: Vec::new(), parts: Vec::new() };
    out.part(Part::Characters, 1);
    out.number(pack.characters);
    out.part(Part::Facts, pack.domains.len());
    pack.domains.iter().enumerate().for_each(|(i, &size)| out.part(Part::Fact(i), size));
    out.nodes(pack);
    out.actions(pack);
    out.triggers(pack);
    out.utilities(pack);
    out
}

impl Written {
    /// What the byte at a place is about; of a place behind the end, what the last byte is about.
    pub fn part_at(&self, place: usize) -> Option<Part> {
        let after = self.parts.partition_point(|&(begin, _)| begin <= place);
        Some(self.parts[after.checked_sub(1)?].1)
    }

    /// The first number of a part.
    fn part(&mut self, part: Part, number: usize) {
        self.parts.push((self.bytes.len(), part));
        self.number(number);
    }

    /// A number in groups of seven bits, lowest first, the top bit set on all but the last.
    fn number(&mut self, mut number: usize) {
        while number >= 0x80 {
            self.bytes.push(number as u8 | 0x80);
            number >>= 7;
        }
        self.bytes.push(number as u8);
    }

    fn nodes(&mut self, pack: &Pack) {
        self.part(Part::Views, pack.nodes.len());
        for (view, node) in pack.nodes.iter().enumerate() {
            node.values.iter().enumerate().for_each(|(fact, &value)| self.part(Part::Value(view, fact), value));
            for (character, &next) in node.beliefs.iter().enumerate() {
                self.part(Part::Belief(view, character), next + 1);
            }
        }
    }

    fn actions(&mut self, pack: &Pack) {
        self.part(Part::Actions, pack.actions.len());
        for (i, action) in pack.actions.iter().enumerate() {
            self.condition(Owner::Action(i), &action.condition);
            self.effects(Owner::Action(i), &action.effects);
            self.part(Part::Consenters(i), action.consenters.len());
            action.consenters.iter().for_each(|&character| self.number(character));
            for (character, seen) in action.observations.iter().enumerate() {
                self.condition(Owner::Seen(i, character), seen);
            }
        }
    }

    fn triggers(&mut self, pack: &Pack) {
        self.part(Part::Triggers, pack.triggers.len());
        for (i, trigger) in pack.triggers.iter().enumerate() {
            self.condition(Owner::Trigger(i), &trigger.condition);
            self.effects(Owner::Trigger(i), &trigger.effects);
        }
    }

    fn utilities(&mut self, pack: &Pack) {
        for (who, rules) in pack.utilities.iter().enumerate() {
            self.part(Part::Wants(who), rules.len());
            for (i, rule) in rules.iter().enumerate() {
                self.condition(Owner::Rule(who, i), &rule.condition);
                self.part(Part::Worth(who, i), rule.worth);
            }
        }
    }

    fn condition(&mut self, of: Owner, condition: &Condition) {
        self.part(Part::Condition(of), condition.alternatives.len());
        for (i, tests) in condition.alternatives.iter().enumerate() {
            self.part(Part::Alternative(of, i), tests.len());
            for (j, test) in tests.iter().enumerate() {
                self.part(Part::Test(of, i, j), test.chain.len());
                test.chain.iter().for_each(|&character| self.number(character));
                [test.how as usize, test.fluent, test.value].into_iter().for_each(|number| self.number(number));
            }
        }
    }

    fn effects(&mut self, of: Owner, effects: &[Effect]) {
        self.part(Part::Effects(of), effects.len());
        for (i, effect) in effects.iter().enumerate() {
            self.part(Part::Effect(of, i), effect.whom.map_or(0, |character| character + 1));
            self.number(effect.fluent);
            self.number(effect.value);
        }
    }
}
