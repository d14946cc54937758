//! In a search situations that mean the same count as one, so it makes few steps, and no more than it did: one that stores
//! no fact, reuses no step or sees no repeat makes more.

use compare::sources::{build, APART};
use compare::steps::{all_doors, families, steps, stories, Room, Row};
use std::path::Path;

/// The most steps that a search may make: as the code is, without its memory of steps, and without that and its memory of
/// the author's lists. To be lowered where there are fewer.
const MOST: [(&str, Steps); 19] = [
    ("p, T 4 K 3 E 2", [1, 2, 2]),
    ("letter, T 4 K 3 E 2", [9, 14, 14]),
    ("alice, T 4 K 3 E 2", [3, 7, 7]),
    ("shoes, T 4 K 3 E 2", [5, 5, 5]),
    ("market, T 4 K 3 E 2", [5, 5, 5]),
    ("lie, T 4 K 3 E 2", [8, 18, 18]),
    ("safe, T 4 K 3 E 2", [6, 13, 13]),
    ("p, T 8 K 6 E 3", [1, 2, 2]),
    ("letter, T 8 K 6 E 3", [10, 15, 15]),
    ("alice, T 8 K 6 E 3", [3, 7, 7]),
    ("shoes, T 8 K 6 E 3", [5, 5, 5]),
    ("market, T 8 K 6 E 3", [5, 5, 5]),
    ("lie, T 8 K 6 E 3", [8, 21, 21]),
    ("safe, T 8 K 6 E 3", [7, 20, 20]),
    ("stories with a known ending, some spoilt, 8 packs, T 4 K 3 E 2", [35, 86, 88]),
    ("two stories side by side, 8 packs, T 4 K 3 E 2", [46, 112, 112]),
    ("stories at random, 8 packs, T 4 K 3 E 2", [27, 48, 48]),
    ("3 doors, T 8 K 3 E 2", [24, 132, 723]),
    ("3 guarded doors, T 8 K 3 E 2", [24, 171, 186]),
];

type Steps = [u64; APART.len()];

/// The steps of each search, with what `APART` turns off.
fn counted() -> Vec<(String, Steps)> {
    let repository = Path::new(env!("CARGO_MANIFEST_DIR")).join("../..");
    let room = Room::new("effort").expect("a folder");
    let mut rows = stories(&repository).expect("the stories");
    rows.extend(families(&room).expect("drawn packs"));
    rows.extend(all_doors(&room, &[8]).expect("the doors"));
    let column = |off: usize| {
        let program = build(&repository, &room.0.join(format!("apart-{off}")), &APART[off]).expect(APART[off].name);
        steps(&program, &rows).expect(APART[off].name)
    };
    let columns = [column(0), column(1), column(2)];
    let row = |(i, row): (usize, &Row)| (row.title(), [0, 1, 2].map(|off: usize| columns[off][i]));
    rows.iter().enumerate().map(row).collect()
}

#[test]
fn no_more_steps() {
    let counted = counted();
    counted.iter().for_each(|(title, steps)| println!("{title}: {steps:?}"));
    let titles: Vec<&str> = counted.iter().map(|(title, _)| title.as_str()).collect();
    assert_eq!(titles, MOST.map(|(title, _)| title));
    let mut more = Vec::new();
    for ((title, steps), (_, most)) in counted.iter().zip(MOST) {
        if steps.iter().zip(most).any(|(now, most)| *now > most) {
            more.push(format!("{title}: {steps:?} steps, and at most {most:?} may be made"));
        }
    }
    assert!(more.is_empty(), "{more:#?}");
}
