//! The first way and the plain second way give the same answers, bytes and all.

use reference::generate::{answer, call};
use reference::plain;

#[test]
fn both_ways_agree_on_generated_calls() {
    let (mut agreed, mut too_long) = (0, 0);
    for seed in 0..6_000 {
        let call = call(seed);
        match plain::answer(&call) {
            Some(plainly) => {
                assert_eq!(answer(&call), plainly, "seed {seed}: {call}");
                agreed += 1;
            }
            None => too_long += 1,
        }
    }
    println!("{agreed} calls agreed, {too_long} took too long the plain way");
    assert!(agreed >= 4_000, "only {agreed} calls were compared");
}
