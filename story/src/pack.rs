//! What a pack holds (document 01, "The pack"), with the limits of its counts.

pub const LONGEST_PACK: usize = 8_192;
pub const MOST_CHARACTERS: usize = 6;
pub const MOST_FACTS: usize = 24;
pub const MOST_VALUES: usize = 128;
pub const MOST_VIEWS: usize = 32;
pub const MOST_ACTIONS: usize = 32;
pub const MOST_TRIGGERS: usize = 16;
pub const MOST_EFFECTS: usize = 16;
pub const MOST_RULES: usize = 8;
pub const MOST_ALTERNATIVES: usize = 8;
pub const MOST_TESTS: usize = 8;
pub const LONGEST_CHAIN: usize = 4;
pub const MOST_WORTH: usize = 65_535;

/// A pack. Its first node is the truth; `utilities` are the author's and then each character's.
#[derive(Clone, PartialEq, Eq, Debug)]
pub struct Pack {
    pub characters: usize,
    /// For each fact (fluent), how many values it has.
    pub domains: Vec<usize>,
    pub nodes: Vec<Node>,
    pub actions: Vec<Action>,
    pub triggers: Vec<Trigger>,
    pub utilities: Vec<Vec<Rule>>,
}

/// A view: each fact's value, and for each character the number of the view that it believes.
#[derive(Clone, PartialEq, Eq, Debug)]
pub struct Node {
    pub values: Vec<usize>,
    pub beliefs: Vec<usize>,
}

#[derive(Clone, PartialEq, Eq, Debug)]
pub struct Action {
    pub condition: Condition,
    pub effects: Vec<Effect>,
    /// Rising.
    pub consenters: Vec<usize>,
    /// For each character, when it sees the action.
    pub observations: Vec<Condition>,
}

#[derive(Clone, PartialEq, Eq, Debug)]
pub struct Trigger {
    pub condition: Condition,
    pub effects: Vec<Effect>,
}

#[derive(Clone, PartialEq, Eq, Debug)]
pub struct Rule {
    pub condition: Condition,
    pub worth: usize,
}

/// A value for a fact, in the state itself or in one character's belief.
#[derive(Clone, PartialEq, Eq, Debug)]
pub struct Effect {
    pub whom: Option<usize>,
    pub fluent: usize,
    pub value: usize,
}

/// It holds if some alternative has all its tests true.
#[derive(Clone, PartialEq, Eq, Debug)]
pub struct Condition {
    pub alternatives: Vec<Vec<Test>>,
}

/// A test looks where the chain of characters leads.
#[derive(Clone, PartialEq, Eq, Debug)]
pub struct Test {
    pub chain: Vec<usize>,
    pub how: How,
    pub fluent: usize,
    pub value: usize,
}

/// The kinds of tests, in the order of their numbers.
#[derive(Clone, Copy, PartialEq, Eq, Debug)]
pub enum How {
    Is,
    IsNot,
    AtLeast,
}

impl Condition {
    pub fn always() -> Condition {
        Condition { alternatives: vec![Vec::new()] }
    }

    pub fn never() -> Condition {
        Condition { alternatives: Vec::new() }
    }

    /// One alternative, and no test in it.
    pub fn is_always(&self) -> bool {
        matches!(&self.alternatives[..], [tests] if tests.is_empty())
    }

    /// No alternative.
    pub fn is_never(&self) -> bool {
        self.alternatives.is_empty()
    }

    pub fn tests(&self) -> impl Iterator<Item = &Test> {
        self.alternatives.iter().flatten()
    }
}
