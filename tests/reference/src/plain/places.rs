//! States read chain by chain. A place is where a chain has led: a node of the table at first, then what became of
//! a place by an action or a round. Nothing is merged and nothing is numbered breadth first: what a place finds and
//! what is believed there is worked out from the place it came from, as document 01 says it.

use std::collections::HashMap;
use std::rc::Rc;

use crate::graph::Node;
use crate::pack::{Condition, Effect, Pack};

pub type Place = usize;

/// How a place came about.
#[derive(Clone, Copy, PartialEq, Eq, Hash)]
enum Form {
    Node(usize),
    /// A place that has taken an action.
    Acted(usize, Place),
    /// A place after a round of triggers.
    Round(Place),
    /// A place into which effects meant for a character's belief were written.
    Told(Source, usize, Place),
}

/// Where effects come from.
#[derive(Clone, Copy, PartialEq, Eq, Hash)]
enum Source {
    Action(usize),
    Trigger(usize),
}

/// All places met. The three lists besides keep what was worked out once.
pub struct Places<'a> {
    pub pack: &'a Pack,
    table: &'a [Node],
    forms: Vec<Form>,
    numbers: HashMap<Form, Place>,
    values: HashMap<Place, Rc<[u8]>>,
    beliefs: HashMap<(Place, usize), Place>,
    fired: HashMap<Place, Option<usize>>,
    /// How many pairs of places were looked at.
    pub looks: usize,
}

impl<'a> Places<'a> {
    /// Place 0 is node 0 of the table.
    pub fn new(pack: &'a Pack, table: &'a [Node]) -> Self {
        let (forms, numbers, values) = (Vec::new(), HashMap::new(), HashMap::new());
        let (beliefs, fired) = (HashMap::new(), HashMap::new());
        let mut places = Places { pack, table, forms, numbers, values, beliefs, fired, looks: 0 };
        places.place(Form::Node(0));
        places
    }

    pub fn count(&self) -> usize {
        self.forms.len()
    }

    fn place(&mut self, form: Form) -> Place {
        let fresh = self.forms.len();
        let number = *self.numbers.entry(form).or_insert(fresh);
        if number == fresh {
            self.forms.push(form);
        }
        number
    }

    pub fn acted(&mut self, action: usize, before: Place) -> Place {
        self.place(Form::Acted(action, before))
    }

    pub fn round(&mut self, before: Place) -> Place {
        self.place(Form::Round(before))
    }

    fn effects(&self, source: Source) -> &'a [Effect] {
        match source {
            Source::Action(action) => &self.pack.actions[action].effects,
            Source::Trigger(trigger) => &self.pack.triggers[trigger].effects,
        }
    }

    /// The values found at a place.
    pub fn values(&mut self, place: Place) -> Rc<[u8]> {
        if let Some(values) = self.values.get(&place) {
            return values.clone();
        }
        let values = match self.forms[place] {
            Form::Node(node) => self.table[node].values[..].into(),
            Form::Acted(action, before) => self.written(before, Source::Action(action), 0),
            Form::Round(before) => match self.fires(before) {
                Some(trigger) => self.written(before, Source::Trigger(trigger), 0),
                None => self.values(before),
            },
            Form::Told(source, character, before) => self.written(before, source, character + 1),
        };
        self.values.insert(place, values.clone());
        values
    }

    fn written(&mut self, place: Place, source: Source, whom: usize) -> Rc<[u8]> {
        let mut values = self.values(place).to_vec();
        for effect in self.effects(source) {
            if effect.whom == whom {
                values[effect.fluent] = effect.value;
            }
        }
        values.into()
    }

    /// Where a character's belief leads from a place.
    pub fn belief(&mut self, place: Place, character: usize) -> Place {
        if let Some(&known) = self.beliefs.get(&(place, character)) {
            return known;
        }
        let next = match self.forms[place] {
            Form::Node(node) => self.place(Form::Node(self.table[node].beliefs[character])),
            Form::Acted(action, before) => {
                let old = self.belief(before, character);
                let sees = self.holds(&self.pack.actions[action].observations[character], before);
                let next = if sees { self.acted(action, old) } else { old };
                self.told(Source::Action(action), character, next)
            }
            Form::Round(before) => {
                let old = self.belief(before, character);
                let next = self.round(old);
                match self.fires(before) {
                    Some(trigger) => self.told(Source::Trigger(trigger), character, next),
                    None => next,
                }
            }
            Form::Told(_, _, before) => self.belief(before, character),
        };
        self.beliefs.insert((place, character), next);
        next
    }

    /// A place after effects for a character's belief, if there are any.
    fn told(&mut self, source: Source, character: usize, place: Place) -> Place {
        if self.effects(source).iter().any(|effect| effect.whom == character + 1) {
            return self.place(Form::Told(source, character, place));
        }
        place
    }

    /// The lowest trigger that holds at a place.
    pub fn fires(&mut self, place: Place) -> Option<usize> {
        if let Some(&known) = self.fired.get(&place) {
            return known;
        }
        let pack = self.pack;
        let lowest = (0..pack.triggers.len()).find(|&trigger| self.holds(&pack.triggers[trigger].condition, place));
        self.fired.insert(place, lowest);
        lowest
    }

    pub fn holds(&mut self, condition: &Condition, place: Place) -> bool {
        'alternatives: for tests in &condition.alternatives {
            for test in tests {
                let end = test.chain.iter().fold(place, |at, &character| self.belief(at, character));
                let found = self.values(end)[test.fluent];
                let wrong = [found != test.value, found == test.value, found < test.value][test.kind];
                if wrong {
                    continue 'alternatives;
                }
            }
            return true;
        }
        false
    }

    /// The utility of `who`: 0 the author, character + 1 a character.
    pub fn utility(&mut self, who: usize, place: Place) -> usize {
        let pack = self.pack;
        for rule in &pack.utilities[who] {
            if self.holds(&rule.condition, place) {
                return rule.worth;
            }
        }
        0
    }
}
