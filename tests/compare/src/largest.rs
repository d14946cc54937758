//! The largest packs, for the benchmark: 8,192 bytes, accepted.

use reference::generate::draft::{self, action, effect, empty, test, trigger, AT_LEAST, IS};
use reference::generate::packs::lengthen;
use reference::pack::{Condition, Effect, LONGEST_PACK};

/// As many actions, conditions and tests of the longest chains as fit.
pub fn deep() -> Vec<u8> {
    let mut pack = empty(6, &[2, 3, 128]);
    lengthen(&mut pack, LONGEST_PACK);
    draft::bytes(&pack)
}

/// As many characters, fluents, nodes, actions, consenters and triggers as there may be, with short tests; what is
/// missing then is in the rules.
pub fn wide() -> Vec<u8> {
    let mut pack = empty(6, &[128; 24]);
    pack.nodes = vec![pack.nodes[0].clone(); 32];
    for i in 0..32 {
        let mut next = action(&pack, tests(i), effects(i, 8), &[0, 1, 2, 3, 4, 5]);
        next.observations = (0..6).map(|c| tests(i + c)).collect();
        pack.actions.push(next);
    }
    pack.triggers = (0..16).map(|i| trigger(tests(i), effects(i, 4))).collect();
    lengthen(&mut pack, LONGEST_PACK);
    draft::bytes(&pack)
}

/// Two alternatives, of two tests and of one, some about a character's belief.
fn tests(i: usize) -> Condition {
    let one =
        |k: usize| test(&[k % 6][..k % 2], if k.is_multiple_of(3) { AT_LEAST } else { IS }, k % 24, (k % 128) as u8);
    Condition { alternatives: vec![vec![one(i), one(i + 1)], vec![one(i + 2)]] }
}

fn effects(i: usize, count: usize) -> Vec<Effect> {
    (0..count).map(|k| effect(k % 7, (i + k) % 24, (i * k % 128) as u8)).collect()
}
