//! The readings of P and its neighbours, as document 01 lists them, and what Start, Query and Search say besides.

mod common;

use common::{chart, hex, node, p_with, says};
use reference::generate::draft::*;

#[test]
fn readings_of_p() {
    for (line, answer) in [
        ("start P", "chart 01000101 of 4 bytes, work zeroed"),
        ("step P 01000101 0", "chart 02010102000202 of 7 bytes, work zeroed"),
        ("step P 01010101 0", "refused 10 at 0, work zeroed"),
        ("compare P 02010102000202 01010101", "differ by chain 01 of 1 at fluent 0, work zeroed"),
        ("compare P 01000101 02000202000101", "same, work zeroed"),
        ("explained P 01000101 0 0 1 1", "yes, work zeroed"),
        ("explained P 01000101 1 0 1 1", "no, work zeroed"),
        ("explained P 01000101 0 0 1 0", "no, work zeroed"),
        ("search P 1 1 1", "list 00 of 1, author 0 5, work zeroed"),
        ("search P 1 1 0", "refused 13 at 0, work zeroed"),
        ("start -", "refused 1 at 0"),
        ("ending P", "1 0 / author 0 5"),
    ] {
        assert_eq!(says(line), answer, "{line}");
    }
    assert_eq!(says(&format!("start {}", p_with(6, 7, "00"))), "refused 5 at 6");
}

#[test]
fn what_ending_prints() {
    let p = reference::text::bytes(common::P).unwrap();
    assert_eq!(reference::ending::ending(&p), "1 0\nauthor 0 5\n");
    assert_eq!(reference::ending::ending(&[]), "refused 1 at 0\n");
}

#[test]
fn worths_and_values_at_their_limits() {
    assert_eq!(
        says(&format!("search {} 1 1 1", p_with(32, 33, "ffff03"))),
        "list 00 of 1, author 0 65535, work zeroed"
    );
    assert_eq!(says(&format!("search {} 1 1 1", p_with(32, 33, "ffff04"))), "refused 2 at 32");
    assert_eq!(says("step P 01020101 0"), "refused 10 at 0, work zeroed");
    assert_eq!(says("step P 01030101 0"), "refused 24 at 1");
}

#[test]
fn start_merges_and_numbers_breadth_first_and_runs_no_trigger() {
    let mut pack = empty(2, &[4]);
    // Node 1 means what node 4 means; node 3 is out of reach.
    pack.nodes =
        vec![node(&[0], &[2, 1]), node(&[1], &[0, 4]), node(&[2], &[2, 4]), node(&[3], &[3, 3]), node(&[1], &[0, 1])];
    pack.triggers.push(trigger(always(), vec![effect(0, 0, 3)]));
    assert_eq!(says(&format!("start {}", hex(&pack))), "chart 03000203020203010103 of 10 bytes, work zeroed");
}

#[test]
fn query_follows_the_chain_of_any_length() {
    let mut pack = empty(2, &[4]);
    pack.nodes = vec![node(&[0], &[1, 0]), node(&[1], &[2, 0]), node(&[2], &[0, 3]), node(&[3], &[3, 3])];
    let (bytes, table) = (hex(&pack), chart(&pack.nodes));
    for (chain, value) in
        [("-", 0), ("00", 1), ("0000", 2), ("000000", 0), ("0001", 0), ("000001", 3), ("0000010001", 3)]
    {
        assert_eq!(says(&format!("query {bytes} {table} {chain} 0")), format!("value {value}, work zeroed"));
    }
    let far = "00".repeat(1_000);
    assert_eq!(says(&format!("query {bytes} {table} {far} 0")), "value 1, work zeroed");
}

/// One alternative without tests always holds, no alternatives never; kinds and alternatives as the document has them.
#[test]
fn conditions() {
    let holds = |condition| {
        let mut pack = empty(1, &[3]);
        pack.nodes = vec![node(&[1], &[1]), node(&[2], &[0])];
        pack.actions.push(action(&pack, condition, vec![], &[]));
        !says(&format!("step {} {} 0", hex(&pack), chart(&pack.nodes))).starts_with("refused 10")
    };
    assert!(holds(always()));
    assert!(!holds(never()));
    for (kind, expected) in [(IS, [false, true, false]), (IS_NOT, [true, false, true]), (AT_LEAST, [true, true, false])]
    {
        for value in 0..3 {
            assert_eq!(holds(all(vec![test(&[], kind, 0, value)])), expected[value as usize]);
        }
    }
    assert!(holds(all(vec![test(&[0], IS, 0, 2), test(&[0, 0], IS, 0, 1), test(&[0, 0, 0, 0], IS, 0, 1)])));
    assert!(!holds(all(vec![test(&[], IS, 0, 1), test(&[], IS, 0, 2)])));
    let either =
        reference::pack::Condition { alternatives: vec![vec![test(&[], IS, 0, 2)], vec![test(&[0], IS, 0, 2)]] };
    assert!(holds(either));
}

#[test]
fn the_first_rule_that_holds_gives_the_worth() {
    let mut pack = empty(1, &[3]);
    pack.actions.push(action(&pack, is(0, 0), vec![effect(0, 0, 1)], &[]));
    pack.utilities[0] = vec![rule(is(0, 2), 1), rule(always(), 7), rule(is(0, 1), 9)];
    assert_eq!(says(&format!("search {} 3 1 0", hex(&pack))), "refused 13 at 0, work zeroed");
    pack.utilities[0].swap(1, 2);
    assert_eq!(says(&format!("search {} 3 1 0", hex(&pack))), "list 00 of 1, author 7 9, work zeroed");
}

/// Shortest first, then the lower action at the first place where two lists differ.
#[test]
fn search_finds_the_shortest_and_then_the_earliest() {
    let mut pack = empty(1, &[4]);
    for (from, to) in [(2, 3), (0, 2), (0, 1), (1, 3), (3, 3)] {
        pack.actions.push(action(&pack, is(0, from), vec![effect(0, 0, to)], &[]));
    }
    pack.utilities[0].push(rule(is(0, 3), 1));
    assert_eq!(says(&format!("search {} 8 1 0", hex(&pack))), "list 0100 of 2, author 0 1, work zeroed");
    pack.actions.swap(1, 2);
    assert_eq!(says(&format!("search {} 8 1 0", hex(&pack))), "list 0103 of 2, author 0 1, work zeroed");
    pack.actions.push(action(&pack, always(), vec![effect(0, 0, 3)], &[]));
    assert_eq!(says(&format!("search {} 8 1 0", hex(&pack))), "list 05 of 1, author 0 1, work zeroed");
    assert_eq!(says(&format!("search {} 8 1 3", hex(&pack))), "list 05 of 1, author 0 1, work zeroed");
}
