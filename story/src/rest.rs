//! Whether triggers come to rest, as far as their own tests and effects tell. Step gives up after 16 rounds (its 11).

use std::collections::HashMap;

use crate::pack::{Effect, How, Pack, Test};

/// After so many rounds no trigger may hold.
const ROUNDS: usize = 16;

/// The values that facts may have, a bit each, where chains lead. What isn't in it may have any.
type Possible = HashMap<(Vec<usize>, usize), u128>;

/// Whether triggers go on without end once this one holds: in each round one is sure to hold in the same state.
pub fn holds_on(pack: &Pack, trigger: usize) -> bool {
    pack.triggers[trigger].condition.alternatives.iter().any(|tests| {
        let mut state = Possible::new();
        tests.iter().for_each(|test| *entry(&mut state, pack, test) &= mask(pack, test));
        !state.values().any(|&values| values == 0) && (0..=ROUNDS).all(|_| round(pack, &mut state))
    })
}

/// The lowest trigger that is sure to hold takes effect. False if none is.
fn round(pack: &Pack, state: &mut Possible) -> bool {
    let mut sure = |test: &Test| *entry(state, pack, test) & !mask(pack, test) == 0;
    let holding = pack
        .triggers
        .iter()
        .find(|trigger| trigger.condition.alternatives.iter().any(|tests| tests.iter().all(&mut sure)));
    let Some(trigger) = holding else { return false };
    for Effect { whom, fluent, value } in &trigger.effects {
        state.insert((whom.iter().copied().collect(), *fluent), 1 << value);
    }
    true
}

/// Whether a trigger writes into a belief what makes it hold there: it may then write into the belief in that one, and
/// so on.
pub fn goes_deeper(pack: &Pack, trigger: usize) -> bool {
    let trigger = &pack.triggers[trigger];
    (0..pack.characters).any(|character| {
        let written = |fluent: usize| {
            let last = trigger.effects.iter().rfind(|effect| effect.whom == Some(character) && effect.fluent == fluent);
            last.map(|effect| 1 << effect.value)
        };
        trigger.condition.alternatives.iter().any(|tests| {
            let own = tests.iter().filter(|test| test.chain.is_empty());
            let judged: Vec<bool> =
                own.filter_map(|test| Some(written(test.fluent)? & mask(pack, test) != 0)).collect();
            !judged.is_empty() && judged.iter().all(|&holds| holds)
        })
    })
}

fn entry<'s>(state: &'s mut Possible, pack: &Pack, test: &Test) -> &'s mut u128 {
    state.entry((test.chain.clone(), test.fluent)).or_insert(all(pack, test.fluent))
}

fn all(pack: &Pack, fact: usize) -> u128 {
    u128::MAX >> (128 - pack.domains[fact])
}

/// The values with which a test holds.
fn mask(pack: &Pack, test: &Test) -> u128 {
    let value: u128 = 1 << test.value;
    match test.how {
        How::Is => value,
        How::IsNot => all(pack, test.fluent) & !value,
        How::AtLeast => all(pack, test.fluent) & !(value - 1),
    }
}
