//! The tuned form allocates nothing once its engine has grown to what the calls need.

use std::alloc::{GlobalAlloc, Layout, System};
use std::cell::Cell;

use reference::call::{Ask, Call};
use reference::generate::call;
use reference::implementation::Implementation;
use reference::tuned::Engine;

struct Counting;

thread_local! {
    static COUNT: Cell<usize> = const { Cell::new(0) };
}

unsafe impl GlobalAlloc for Counting {
    unsafe fn alloc(&self, layout: Layout) -> *mut u8 {
        COUNT.with(|count| count.set(count.get() + 1));
        System.alloc(layout)
    }

    unsafe fn dealloc(&self, pointer: *mut u8, layout: Layout) {
        System.dealloc(pointer, layout)
    }
}

#[global_allocator]
static COUNTING: Counting = Counting;

/// Puts the calls to the engine and gives how many answered and how many allocations that took.
fn run(engine: &mut Engine, calls: &[Call], result: &mut [u8], work: &mut [u8]) -> (usize, usize) {
    let before = COUNT.with(Cell::get);
    let mut answered = 0;
    for call in calls {
        let pack = &call.pack;
        answered += match &call.ask {
            Ask::Step { chart, action } => engine.step(pack, chart, *action, result, work).is_ok(),
            Ask::Explained { chart, character, action, foresight, nesting } => {
                engine.explained(pack, chart, *character, *action, *foresight, *nesting, work).is_ok()
            }
            Ask::Search { story, foresight, nesting } => {
                engine.search(pack, *story, *foresight, *nesting, result, work).is_ok()
            }
            _ => false,
        } as usize;
    }
    (answered, COUNT.with(Cell::get) - before)
}

#[test]
fn steps_and_searches_allocate_nothing_the_second_time() {
    let calls: Vec<Call> = (0..2_000).map(call).collect();
    let (mut result, mut work) = (vec![0; 961], vec![0; 49_152]);
    let mut engine = Engine::new();
    let (first, grown) = run(&mut engine, &calls, &mut result, &mut work);
    let (second, more) = run(&mut engine, &calls, &mut result, &mut work);
    assert!(first > 400 && first == second, "{first} and {second} answered");
    assert!(grown > 0 && more == 0, "{grown} allocations at first, {more} the second time");
}
