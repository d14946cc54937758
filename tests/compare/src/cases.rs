//! Calls that benchmarks measure, and how: by the library, by the tuned engine and by the readable reference in turn.

use crate::library::Library;
use crate::tables::{early, pack};
use crate::timing::{in_turn, Way};
use reference::call::{lent, Ask, Call, Outcome};
use reference::chart;
use reference::generate::draft;
use reference::graph::Node;
use reference::implementation::{outcome, Implementation, Reference};
use reference::tuned::Engine;
use std::cell::RefCell;
use std::hint::black_box;

pub fn start(characters: usize, nodes: Vec<Node>) -> Call {
    Call::new(draft::bytes(&pack(characters, nodes)), Ask::Start)
}

/// A chain of 62 characters in a chart of so many nodes.
pub fn query(characters: usize, nodes: Vec<Node>) -> Call {
    let chain = (0..62).map(|i| (i % characters) as u8).collect();
    let ask = Ask::Query { chart: chart::bytes(&nodes), chain, fluent: 0 };
    Call::new(draft::bytes(&pack(characters, early(characters, 1))), ask)
}

pub fn pair(characters: usize, (first, second): (Vec<Node>, Vec<Node>)) -> Call {
    let ask = Ask::Compare { first: chart::bytes(&first), second: chart::bytes(&second) };
    Call::new(draft::bytes(&pack(characters, early(characters, 1))), ask)
}

pub fn answer(by: &mut impl Implementation, call: &Call) -> Outcome {
    outcome(by, &call.ask, call.handed(), &mut lent(call.result), &mut lent(call.work))
}

/// The same call again and again.
pub fn repeated<'a>(
    by: &'a mut impl Implementation,
    call: &'a Call,
    buffers: &'a RefCell<(Vec<u8>, Vec<u8>)>,
) -> impl FnMut() + 'a {
    move || {
        let (result, work) = &mut *buffers.borrow_mut();
        drop(black_box(outcome(by, &call.ask, black_box(call.handed()), result, work)))
    }
}

/// The same call again and again, the work buffer full of other bytes before each.
pub fn refilled<'a>(
    by: &'a mut impl Implementation,
    call: &'a Call,
    buffers: &'a RefCell<(Vec<u8>, Vec<u8>)>,
) -> impl FnMut() + 'a {
    let mut run = repeated(by, call, buffers);
    move || {
        buffers.borrow_mut().1.fill(0xa5);
        run()
    }
}

/// Medians of the library's, the tuned engine's and the readable reference's time, in nanoseconds; all three must answer
/// the same.
pub fn medians(call: &Call) -> [f64; 3] {
    let (mut library, mut engine, mut reference) = (Library::new(), Engine::new(), Reference);
    let expected = answer(&mut reference, call);
    assert!(answer(&mut library, call) == expected && answer(&mut engine, call) == expected, "they differ on {call}");
    // One pair of buffers for all, since how they lie in memory tells on the time.
    let buffers = RefCell::new((lent(call.result), lent(call.work)));
    let mut ways = [
        Way::new("library", repeated(&mut library, call, &buffers)),
        Way::new("tuned", repeated(&mut engine, call, &buffers)),
        Way::new("readable", repeated(&mut reference, call, &buffers)),
    ];
    let times = in_turn(&mut ways);
    [times[0].median, times[1].median, times[2].median]
}
