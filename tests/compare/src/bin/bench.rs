//! How long a pack is read by the proved library, by the reference's readable reader and by its tuned one.

use compare::timing::{compare, Way, ROUNDS};
use compare::{expected, inputs, largest, probe};
use reference::implementation::Implementation;
use reference::refusal::{without_place, SHORT};
use reference::tuned::Engine;
use std::hint::black_box;

fn main() {
    println!("Reading a pack, one after the other on one thread, the three in turn, {ROUNDS} times each.");
    println!("No buffer is cleared between reads. Within a read the library sets its array of places (327 numbers of");
    println!("8 bytes) to 0; the readable reader allocates what it returns; the tuned reader keeps its memory.\n");
    measure("most tests, chains of 4", &largest::deep());
    measure("most of all else, short tests", &largest::wide());
    measure("P", &inputs::P);
}

fn measure(name: &str, pack: &[u8]) {
    let counts = expected::pack(pack).expect("the pack is accepted");
    assert_eq!(probe::pack(pack), Ok(counts));
    println!("{name}: {} bytes, accepted, {counts:?}", pack.len());
    let mut report = [0; probe::PACK_ENTRIES];
    let mut engine = Engine::new();
    let library = || assert_eq!(probe::pack_into(black_box(pack), black_box(&mut report)), 0);
    let readable = || drop(black_box(reference::pack::read(black_box(pack))));
    // Start, lent nothing, reads the pack and then refuses.
    let tuned = || assert_eq!(engine.start(black_box(pack), &mut [], &mut []), Err(without_place(SHORT)));
    compare(&mut [Way::new("library", library), Way::new("readable", readable), Way::new("tuned", tuned)]);
}
