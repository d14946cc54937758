//! 16 and 17 rounds, 32 and 33 states, and Compare at 62.

mod common;

use common::{chart, hex, node, says};
use reference::generate::draft::*;
use reference::generate::random::Random;
use reference::generate::tables;
use reference::pack::Pack;

/// Sixteen triggers, one for each value from 15 to 30, count a fluent up to 31. A seventeenth round is needed where the
/// first of them has to act twice.
#[test]
fn sixteen_rounds_settle_and_seventeen_do_not() {
    let mut pack = empty(1, &[32, 2]);
    pack.actions.push(action(&pack, always(), vec![effect(0, 0, 15)], &[]));
    pack.triggers = (15..31).map(|value| trigger(is(0, value), vec![effect(0, 0, value + 1)])).collect();
    let line = |pack: &Pack| format!("step {} 011f0001 0", hex(pack));
    assert_eq!(says(&line(&pack)), "chart 011f0001 of 4 bytes, work zeroed");
    let twice = all(vec![test(&[], IS, 0, 15), test(&[], IS, 1, 0)]);
    pack.triggers[1].condition.alternatives.push(vec![test(&[], IS, 0, 15), test(&[], IS, 1, 1)]);
    pack.triggers[0] = trigger(twice, vec![effect(0, 1, 1)]);
    assert_eq!(says(&line(&pack)), "chart 011f0101 of 4 bytes, work zeroed");
    pack.triggers[1].effects[0].value = 16;
    assert_eq!(says(&line(&pack)), "refused 11 at 0, work zeroed");
}

/// A counter in bits needs exactly 31 less its number.
#[test]
fn rounds_of_a_counter() {
    for number in 0..32u8 {
        let mut pack = empty(2, &[2; 5]);
        let set = (0..5).map(|bit| effect(0, bit, number >> bit & 1)).collect();
        pack.actions.push(action(&pack, always(), set, &[]));
        for bit in 0..5 {
            let lower = (0..bit).map(|lower| effect(0, lower, 0));
            pack.triggers.push(trigger(is(bit, 0), lower.chain([effect(0, bit, 1)]).collect()));
        }
        let settled = number >= 31 - 16;
        let expected =
            if settled { "chart 0101010101010101 of 8 bytes, work zeroed" } else { "refused 11 at 0, work zeroed" };
        assert_eq!(says(&format!("step {} 0101010101010101 0", hex(&pack))), expected, "from {number}");
    }
}

/// A trigger that holds and changes nothing makes rounds all the same.
#[test]
fn a_trigger_without_effect_never_settles() {
    let mut pack = empty(1, &[2]);
    pack.actions.push(action(&pack, always(), vec![effect(0, 0, 1)], &[]));
    pack.triggers.push(trigger(is(0, 1), vec![effect(0, 0, 1)]));
    assert_eq!(says(&format!("step {} 010001 0", hex(&pack))), "refused 11 at 0, work zeroed");
}

fn news(count: usize) -> (Pack, String) {
    let mut pack = empty(1, &[2, 32]);
    let mut tell = action(&pack, always(), vec![effect(0, 0, 1)], &[]);
    tell.observations[0] = never();
    pack.actions.push(tell);
    let table = tables::ring(&mut Random::new(7), 1, 2, 1, count);
    (pack, chart(&table))
}

#[test]
fn thirty_two_states_pass_and_thirty_three_do_not() {
    let (pack, table) = news(31);
    assert!(says(&format!("step {} {table} 0", hex(&pack))).starts_with("chart 20"));
    let (pack, table) = news(32);
    assert_eq!(says(&format!("step {} {table} 0", hex(&pack))), "refused 12 at 0, work zeroed");
}

/// The first stage with more than 32 states counts, even if the next round would merge them again.
#[test]
fn states_are_counted_before_the_rounds() {
    let (mut pack, table) = news(32);
    pack.triggers.push(trigger(is(0, 1), vec![effect(0, 0, 0)]));
    assert_eq!(says(&format!("step {} {table} 0", hex(&pack))), "refused 12 at 0, work zeroed");
    pack.triggers.push(trigger(always(), vec![]));
    assert_eq!(says(&format!("step {} {table} 0", hex(&pack))), "refused 12 at 0, work zeroed");
}

/// Each round tells one more and makes one more state: 16 in the ring, and 17 are 33 after round 16, when the trigger
/// still holds. One less in the ring and the rounds are what stops it.
#[test]
fn too_many_states_after_round_16_come_before_the_rounds() {
    for (count, number) in [(14, 11), (15, 11), (16, 12), (17, 12)] {
        let (mut pack, table) = news(count);
        let untold = all(vec![test(&[], IS, 0, 1), test(&[0], IS, 0, 0)]);
        pack.triggers.push(trigger(untold, vec![effect(1, 0, 1)]));
        let answer = says(&format!("step {} {table} 0", hex(&pack)));
        assert_eq!(answer, format!("refused {number} at 0, work zeroed"), "a ring of {count}");
    }
}

#[test]
fn compare_at_every_length_to_62() {
    for length in 1..=62 {
        for characters in 1..=3 {
            let r = &mut Random::new(length as u64);
            let pack = empty(characters, &[2, 2]);
            let (first, second) = tables::long_difference(r, characters, 2, length);
            let (one, two) = (chart(&first), chart(&second));
            let answer = says(&format!("compare {} {one} {two}", hex(&pack)));
            assert!(answer.contains(&format!(" of {length} at fluent")), "{length}: {answer}");
            let back = says(&format!("compare {} {two} {one}", hex(&pack)));
            assert_eq!(answer, back);
        }
    }
}

#[test]
fn compare_takes_the_earliest_chain_and_the_lowest_fluent() {
    let pack = empty(3, &[2, 2, 2]);
    let first = [node(&[0, 0, 0], &[0, 1, 1]), node(&[0, 0, 0], &[0, 0, 1])];
    let second = [node(&[0, 0, 0], &[0, 1, 1]), node(&[0, 1, 1], &[0, 0, 1])];
    let answer = says(&format!("compare {} {} {}", hex(&pack), chart(&first), chart(&second)));
    assert_eq!(answer, "differ by chain 01 of 1 at fluent 1, work zeroed");
    // The difference at once: an empty chain, and no byte of the buffer changed.
    let other = [node(&[0, 0, 1], &[0, 0, 0])];
    let answer = says(&format!("compare {} {} {}", hex(&pack), chart(&first), chart(&other)));
    assert_eq!(answer, "differ by chain - of 0 at fluent 2, work zeroed");
}
