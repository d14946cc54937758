//! The packs of a season's size are accepted whatever their seed and size, and the tuned form finds the same in them
//! with and without a limit of its memory.

use reference::generate::random::Random;
use reference::generate::{about, draft, seasons};
use reference::implementation::answer_by;
use reference::pack::{self, Pack};
use reference::tuned::Engine;

type Draw = fn(&mut Random, usize) -> Pack;

const KINDS: [(&str, Draw, std::ops::RangeInclusive<usize>); 5] = [
    ("court", seasons::court, 3..=6),
    ("stubborn", seasons::stubborn, 1..=8),
    ("bargain", seasons::bargain, 1..=3),
    ("chain", seasons::chain, 2..=8),
    ("idle", seasons::idle, 3..=6),
];

#[test]
fn all_are_accepted() {
    for (name, draw, sizes) in KINDS {
        for size in sizes {
            for seed in 0..50 {
                let pack = draft::bytes(&draw(&mut Random::new(seed), size));
                assert!(pack::read(&pack).is_ok(), "{name} of {size}, seed {seed}");
            }
        }
    }
}

#[test]
fn little_memory_changes_no_ending() {
    let (mut free, mut held) = (Engine::new(), Engine::held(4_096));
    let mut more = 0;
    for (name, draw, sizes) in KINDS {
        for size in sizes.take(4) {
            for seed in 0..10 {
                let call = about::search(&draw(&mut Random::new(seed), size), 6, 4, 2);
                assert_eq!(answer_by(&mut held, &call), answer_by(&mut free, &call), "{name} of {size}, seed {seed}");
                more += (held.steps() > free.steps()) as u32;
            }
        }
    }
    assert!(more > 20, "{more}");
}
