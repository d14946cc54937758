//! The proved Step agrees with the reference: single steps of every kind, and walks of 20 steps, each from the chart that
//! the one before it wrote. What is lent is as in `calls`.

use compare::agreement::{both, often};
use compare::asks;
use compare::course;
use compare::lending::Noise;
use compare::library::Library;
use compare::tally::Tally;
use reference::call::{Ask, Call, Outcome};
use reference::chart;
use reference::generate::random::Random;
use reference::generate::{about, draft, limits, packs, stories, wander};
use reference::pack::Pack;
use std::collections::BTreeSet;

const STEPS: u64 = 110_000;
/// One in so many steps is counted by its rounds and states.
const COUNTED: u64 = 3;
const WALKS: u64 = 2_500;
const LENGTH: u64 = 20;

#[test]
fn step() {
    let (mut tally, mut courses) = (Tally::default(), Tally::default());
    let (mut library, noise) = (Library::new(), Noise::new());
    for seed in 0..STEPS {
        let call = asks::step(&mut Random::new(seed));
        let seen = both(&mut tally, &mut library, &call, &noise, seed);
        if seed % COUNTED == 0 {
            course::note(&mut courses, &call, &seen);
        }
    }
    println!("step: {tally}");
    println!("step, one in {COUNTED} of those played: {courses}");
    let in_a_pack = [1, 2, 3, 4, 5, 6, 7];
    let in_a_chart = [21, 22, 23, 24, 25, 27];
    often(&tally, 300, &["chart of 1", "chart of 2 to 31", "chart of 32"], &[&in_a_pack[..], &in_a_chart, &[8, 9]]);
    often(&tally, 2_000, &[], &[&[10, 11, 12]]);
    let rounds = ["0", "1", "others", "15", "16"].map(|rounds| format!("settled after {rounds}"));
    let left = ["1", "others", "31", "32"].map(|states| format!("states left: {states}"));
    rounds.iter().chain(&left).for_each(|what| often(&courses, 100, &[what], &[]));
    often(&courses, 100, &["would settle after 17", "would settle later or never"], &[]);
    often(&courses, 100, &["states after part 1: 33", "states after a round: 33"], &[]);
    often(&courses, 50, &["states after part 1: others", "states after a round: others"], &[]);
}

#[test]
fn walks() {
    let (mut tally, mut lengths) = (Tally::default(), Tally::default());
    let (mut library, noise) = (Library::new(), Noise::new());
    for seed in 0..WALKS {
        let r = &mut Random::new(8_000_000 + seed);
        let pack = walked(r);
        let start = Call::new(draft::bytes(&pack), Ask::Start);
        let seen = both(&mut Tally::default(), &mut library, &start, &noise, seed);
        let Outcome::Length(length) = seen.outcome else { continue };
        let mut chart = seen.result[..length].to_vec();
        let mut met = BTreeSet::new();
        for i in 0..LENGTH {
            let (action, _) = about::deed(r, &pack, &chart::table(&pack, &chart).expect("the chart is read"));
            let call = Call::new(start.pack.clone(), Ask::Step { chart: chart.clone(), action });
            let seen = both(&mut tally, &mut library, &call, &noise, LENGTH * seed + i);
            if let Outcome::Length(length) = seen.outcome {
                chart = seen.result[..length].to_vec();
            }
            met.insert(chart.clone());
        }
        lengths.note(format!("with {:2} different charts", met.len()));
    }
    println!("walks, their steps: {tally}");
    println!("walks: {lengths}");
    assert!(lengths.all() as u64 >= WALKS * 9 / 10);
    often(&tally, 300, &["chart of 1", "chart of 2 to 31", "chart of 32"], &[&[10, 11, 12]]);
    let many = [
        "with  1 different charts",
        "with  2 different charts",
        "with  5 different charts",
        "with  8 different charts",
    ];
    often(&lengths, 50, &many, &[]);
}

/// A pack to walk through; some are at the limits of a step.
fn walked(r: &mut Random) -> Pack {
    match r.below(20) {
        0 => limits::counter(r),
        1 => limits::gossip(r),
        2 => limits::crowd(r),
        3..=7 => wander::wander(r),
        8..=11 => stories::story(r).pack,
        12 => stories::tangle(r),
        13 => packs::large(r),
        _ => packs::small(r),
    }
}
