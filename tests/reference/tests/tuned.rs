//! The tuned form gives the same answers as the readable one, bytes and all, with one engine for all calls; and so does
//! the one with a memory of limited size.

use reference::generate::{call, Ask};
use reference::implementation::{answer, answer_by};
use reference::tuned::Engine;

/// The least that is taken, so that much is forgotten, and as much as the benchmarks hold it to.
const HELD: [usize; 2] = [4_096, 27 * 1_024];

#[test]
fn the_tuned_form_agrees_on_generated_calls() {
    let mut engine = Engine::new();
    for seed in 0..10_000 {
        let call = call(seed);
        assert_eq!(answer_by(&mut engine, &call), answer(&call), "seed {seed}: {call}");
    }
}

/// With a limit the answers stay and the steps become more, on some calls with a small memory.
#[test]
fn what_is_forgotten_changes_no_answer() {
    let mut free = Engine::new();
    let mut held = HELD.map(Engine::held);
    let mut more = [0; HELD.len()];
    for seed in 0..10_000 {
        let call = call(seed);
        let expected = answer_by(&mut free, &call);
        for (engine, more) in held.iter_mut().zip(&mut more) {
            assert_eq!(answer_by(engine, &call), expected, "seed {seed}: {call}");
            *more += (matches!(call.ask, Ask::Search { .. }) && engine.steps() > free.steps()) as u32;
        }
    }
    assert!(more[0] > 20 && more[0] >= more[1], "{more:?}");
}
