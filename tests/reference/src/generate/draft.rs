//! Packs put together in Rust and written as bytes.

use crate::chart;
use crate::graph::Node;
use crate::pack::{Action, Condition, Effect, Pack, Rule, Test, Trigger};

pub const IS: usize = 0;
pub const IS_NOT: usize = 1;
pub const AT_LEAST: usize = 2;

/// A pack with one node, all values 0, in which everyone believes the truth, and nothing else.
pub fn empty(characters: usize, domains: &[usize]) -> Pack {
    Pack {
        characters,
        domains: domains.to_vec(),
        nodes: vec![Node { values: vec![0; domains.len()], beliefs: vec![0; characters] }],
        actions: Vec::new(),
        triggers: Vec::new(),
        utilities: (0..=characters).map(|_| Vec::new()).collect(),
    }
}

pub fn always() -> Condition {
    Condition { alternatives: vec![Vec::new()] }
}

pub fn never() -> Condition {
    Condition { alternatives: Vec::new() }
}

pub fn test(chain: &[usize], kind: usize, fluent: usize, value: u8) -> Test {
    Test { chain: chain.to_vec(), kind, fluent, value }
}

/// A condition of one alternative.
pub fn all(tests: Vec<Test>) -> Condition {
    Condition { alternatives: vec![tests] }
}

/// The condition that a fluent of the state itself has a value.
pub fn is(fluent: usize, value: u8) -> Condition {
    all(vec![test(&[], IS, fluent, value)])
}

pub fn effect(whom: usize, fluent: usize, value: u8) -> Effect {
    Effect { whom, fluent, value }
}

/// An action that everyone observes.
pub fn action(pack: &Pack, condition: Condition, effects: Vec<Effect>, consenters: &[usize]) -> Action {
    let observations = (0..pack.characters).map(|_| always()).collect();
    Action { condition, effects, consenters: consenters.to_vec(), observations }
}

pub fn trigger(condition: Condition, effects: Vec<Effect>) -> Trigger {
    Trigger { condition, effects }
}

pub fn rule(condition: Condition, worth: usize) -> Rule {
    Rule { condition, worth }
}

/// The pack's bytes.
pub fn bytes(pack: &Pack) -> Vec<u8> {
    let mut out = Vec::new();
    put(&mut out, 1);
    put(&mut out, pack.characters);
    put(&mut out, pack.domains.len());
    pack.domains.iter().for_each(|&size| put(&mut out, size));
    out.extend(chart::bytes(&pack.nodes));
    several(&mut out, &pack.actions, |out, action| {
        condition(out, &action.condition);
        several(out, &action.effects, put_effect);
        several(out, &action.consenters, |out, &consenter| put(out, consenter));
        action.observations.iter().for_each(|observation| condition(out, observation));
    });
    several(&mut out, &pack.triggers, |out, trigger| {
        condition(out, &trigger.condition);
        several(out, &trigger.effects, put_effect);
    });
    for rules in &pack.utilities {
        several(&mut out, rules, |out, rule| {
            condition(out, &rule.condition);
            put(out, rule.worth);
        });
    }
    out
}

/// A number in its shortest form.
pub fn put(out: &mut Vec<u8>, mut number: usize) {
    while number >= 0x80 {
        out.push(number as u8 | 0x80);
        number >>= 7;
    }
    out.push(number as u8);
}

fn several<T>(out: &mut Vec<u8>, things: &[T], write: impl Fn(&mut Vec<u8>, &T)) {
    put(out, things.len());
    things.iter().for_each(|thing| write(out, thing));
}

fn condition(out: &mut Vec<u8>, condition: &Condition) {
    several(out, &condition.alternatives, |out, tests| {
        several(out, tests, |out, test| {
            several(out, &test.chain, |out, &character| put(out, character));
            put(out, test.kind);
            put(out, test.fluent);
            put(out, test.value as usize);
        })
    });
}

fn put_effect(out: &mut Vec<u8>, effect: &Effect) {
    put(out, effect.whom);
    put(out, effect.fluent);
    put(out, effect.value as usize);
}
