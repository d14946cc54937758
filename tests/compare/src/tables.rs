//! Charts of the sizes that the benchmark of the calls is run on.

use reference::calls::CHAIN_ROOM;
use reference::generate::draft::{self, action, always, effect, is, never, trigger};
use reference::generate::random::Random;
use reference::generate::tables::{long_difference, ring};
use reference::graph::Node;
use reference::pack::Pack;

/// Eight fluents, each of 32 values.
pub const FLUENTS: usize = 8;

/// A pack with these nodes and nothing else.
pub fn pack(characters: usize, nodes: Vec<Node>) -> Pack {
    Pack { nodes, ..draft::empty(characters, &[32; FLUENTS]) }
}

/// How many triggers `stepping` has, each of which takes a round.
pub const TRIGGERS: u8 = 4;

/// A pack with an action that everyone observes, which leaves as many states as there are, and one whose condition fails.
/// With triggers, the action is followed by a round for each of them, in every state; the last also tells character 0.
pub fn stepping(characters: usize, nodes: Vec<Node>, triggers: bool) -> Pack {
    let mut pack = pack(characters, nodes);
    let deed = action(&pack, always(), vec![effect(0, 1, 1)], &[]);
    let refused = action(&pack, never(), vec![effect(0, 1, 1)], &[]);
    pack.actions = vec![deed, refused];
    if triggers {
        pack.triggers = (1..=TRIGGERS).map(|value| trigger(is(1, value), vec![effect(0, 1, value + 1)])).collect();
        let told = [effect(0, 2, 1), effect(1, 2, 1)];
        pack.triggers.last_mut().expect("there are triggers").effects.extend(told);
    }
    pack
}

/// So many states, all reached, each with a value of its own.
pub fn early(characters: usize, count: usize) -> Vec<Node> {
    ring(&mut Random::new(count as u64), characters, FLUENTS, 0, count)
}

/// So many states, all reached, of which only the last has another value: the others are told apart by how far they
/// are from it.
pub fn late(characters: usize, count: usize) -> Vec<Node> {
    let node = |i: usize| {
        let mut values = vec![0; FLUENTS];
        values[FLUENTS - 1] = (i + 1 == count) as u8;
        Node { values, beliefs: vec![(i + 1) % count; characters] }
    };
    (0..count).map(node).collect()
}

/// Two tables of so many nodes, or one less, that part at the last belief at which they can.
pub fn parting(characters: usize, count: usize) -> (Vec<Node>, Vec<Node>) {
    let length = (2 * count - 2).clamp(1, CHAIN_ROOM);
    long_difference(&mut Random::new(count as u64), characters, FLUENTS, length)
}
