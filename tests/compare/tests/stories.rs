//! The proved Search and Explained agree with the independent implementations: with the tuned one, which
//! `reference/tests/tuned.rs` compares with the readable one, on all calls, with the readable one on some of them, and
//! where it ends in time with the enumeration of all lists. What is lent is as in `calls`.

use compare::agreement::{both, often, same};
use compare::lending::Noise;
use compare::library::Library;
use compare::tally::Tally;
use compare::{effort, plans};
use reference::call::{Ask, Call};
use reference::generate::random::Random;
use reference::implementation::answer_by;
use reference::plain;
use reference::tuned::Engine;

const SEARCHES: u64 = 40_000;
const PACKS: u64 = 24_000;
/// How many explanations are asked for about one pack.
const EXPLANATIONS: usize = 5;
/// One in so many calls is put to the readable implementation too.
const READABLE: u64 = 8;
/// So many are put to the enumeration of lists.
const PLAIN: u64 = 3_000;

const IN_A_PACK: [u8; 7] = [1, 2, 3, 4, 5, 6, 7];
const IN_A_CHART: [u8; 6] = [21, 22, 23, 24, 25, 27];

/// The library against the others, and what was met.
struct Comparison {
    library: Library,
    engine: Engine,
    noise: Noise,
    tally: Tally,
    left_out: usize,
}

impl Comparison {
    fn new() -> Comparison {
        let (library, engine, noise) = (Library::new(), Engine::new(), Noise::new());
        Comparison { library, engine, noise, tally: Tally::default(), left_out: 0 }
    }

    fn put(&mut self, call: &Call, seed: u64) {
        if !effort::quick(call) {
            self.left_out += 1;
            return;
        }
        same(&mut self.tally, &mut self.library, &mut self.engine, call, &self.noise, seed);
        if seed.is_multiple_of(READABLE) {
            both(&mut Tally::default(), &mut self.library, call, &self.noise, seed);
        }
    }

    fn told(&self, name: &str) {
        println!("{name}: {}; {} left out", self.tally, self.left_out);
    }
}

#[test]
fn search() {
    let mut comparison = Comparison::new();
    for seed in 0..SEARCHES {
        comparison.put(&plans::search(&mut Random::new(seed)), seed);
    }
    comparison.told("search");
    let lists = [1, 2, 3, 4, 5, 6, 7, 8].map(|length| format!("list of {length}"));
    lists.iter().for_each(|list| often(&comparison.tally, 400, &[list], &[]));
    often(&comparison.tally, 100, &[], &[&IN_A_PACK[..], &[8, 9, 13]]);
    assert!(comparison.left_out < SEARCHES as usize / 50);
}

#[test]
fn explained() {
    let (mut comparison, mut engine) = (Comparison::new(), Engine::new());
    for seed in 0..PACKS {
        let calls = plans::explanations(&mut Random::new(9_000_000 + seed), &mut engine, EXPLANATIONS);
        calls.iter().for_each(|call| comparison.put(call, seed));
    }
    comparison.told("explained");
    often(&comparison.tally, 5_000, &["yes", "no"], &[]);
    often(&comparison.tally, 300, &[], &[&IN_A_PACK[..], &IN_A_CHART, &[8, 9]]);
    assert!(comparison.left_out < PACKS as usize / 50);
}

/// Every list of actions written down and judged, where that ends in time.
#[test]
fn plainly() {
    let (mut library, mut tally, mut engine) = (Library::new(), Tally::default(), Engine::new());
    for seed in 0..PLAIN {
        let r = &mut Random::new(10_000_000 + seed);
        let asked = plans::explanations(r, &mut engine, 1);
        for call in [plans::search(r)].iter().chain(&asked).filter(|call| effort::quick(call)) {
            let name = if matches!(call.ask, Ask::Search { .. }) { "search" } else { "explained" };
            match plain::answer(call) {
                Some(plainly) => {
                    assert_eq!(answer_by(&mut library, call), plainly, "seed {seed}: {call}");
                    tally.note(format!("{name}, ended"));
                }
                None => tally.note(format!("{name}, too long")),
            }
        }
    }
    println!("plainly: {tally}");
    often(&tally, PLAIN as usize / 2, &["search, ended", "explained, ended"], &[]);
}
