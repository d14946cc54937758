//! Calls put to an implementation and to the reference, which must do the same, and counted by what they met.

use crate::lending::{Lent, Noise, Seen};
use crate::tally::{refused, Tally};
use reference::call::{Call, Outcome};
use reference::generate::random::Random;
use reference::implementation::{Implementation, Reference};

/// Puts so many drawn calls to both.
pub fn alike(name: &str, count: u64, draw: fn(&mut Random) -> Call, by: &mut impl Implementation) -> Tally {
    let (mut tally, noise) = (Tally::default(), Noise::new());
    for seed in 0..count {
        let call = draw(&mut Random::new(seed));
        both(&mut tally, by, &call, &noise, seed);
    }
    println!("{name}: {tally}");
    tally
}

/// Puts a call to it and to the reference. Panics where they differ in the answer or in a byte of what they are lent.
pub fn both(tally: &mut Tally, by: &mut impl Implementation, call: &Call, noise: &Noise, seed: u64) -> Seen {
    same(tally, by, &mut Reference, call, noise, seed)
}

/// The same against any other implementation.
pub fn same(
    tally: &mut Tally,
    by: &mut impl Implementation,
    other: &mut impl Implementation,
    call: &Call,
    noise: &Noise,
    seed: u64,
) -> Seen {
    let lent = Lent::new(call, noise, &mut Random::new(seed));
    let (found, expected) = (lent.to(by, call), lent.to(other, call));
    assert_eq!(found.outcome, expected.outcome, "seed {seed}: {call}");
    assert!(found == expected, "seed {seed}: the buffers differ after {call}");
    tally.note(what(&found));
    found
}

/// What was met.
pub fn what(seen: &Seen) -> String {
    match &seen.outcome {
        Outcome::Length(_) => match seen.result[0] {
            1 => "chart of 1".to_string(),
            32 => "chart of 32".to_string(),
            _ => "chart of 2 to 31".to_string(),
        },
        Outcome::Value(_) => "value".to_string(),
        Outcome::Same => "same".to_string(),
        Outcome::Differs(found) => format!("differ after {:2}", found.length),
        Outcome::Verdict(yes) => if *yes { "yes" } else { "no" }.to_string(),
        Outcome::Found(found) => format!("list of {}", found.length),
        Outcome::Text(_) => "text".to_string(),
        Outcome::Refused(refusal) => refused(refusal.number),
    }
}

/// Panics where one of these was met less often than that.
pub fn often(tally: &Tally, least: usize, answers: &[&str], refusals: &[&[u8]]) {
    let refusals = refusals.concat().into_iter().map(refused);
    for what in answers.iter().map(|answer| answer.to_string()).chain(refusals) {
        assert!(tally.met(&what) >= least, "{} calls met: {what}", tally.met(&what));
    }
}
