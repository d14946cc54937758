//! What the benchmark of Search and the count of its steps are run on: small cases, and those of a season's size.

use crate::sought::{doors, family, sized, KINDS, SEASONS};
use std::path::Path;

/// The stories of `examples/`, by size.
pub const SMALL: [&str; 7] = ["p", "letter", "alice", "shoes", "market", "lie", "safe"];
pub const LARGE: [&str; 3] = ["necklace", "will", "thornby"];

/// T, K and E.
pub type Limits = (u64, u64, u64);

/// Those of the program `ending`, and the widest.
const USUAL: [Limits; 2] = [(4, 3, 2), (8, 6, 3)];
/// Beside the widest, how foresight and nesting tell.
const OTHERS: [Limits; 6] = [(8, 1, 1), (8, 2, 1), (8, 4, 2), (8, 6, 0), (8, 6, 1), (8, 6, 2)];
const FAMILY: u64 = 24;

/// Packs that are searched one after the other under the same limits.
pub struct Case {
    pub name: String,
    pub limits: Limits,
    pub packs: Vec<Vec<u8>>,
}

impl Case {
    pub fn title(&self) -> String {
        let (story, foresight, nesting) = self.limits;
        format!("{}, T {story} K {foresight} E {nesting}", self.name)
    }
}

fn example(name: &str) -> Vec<u8> {
    let file = Path::new(env!("CARGO_MANIFEST_DIR")).join(format!("../../examples/{name}.pack"));
    std::fs::read(&file).unwrap_or_else(|error| panic!("{}: {error}", file.display()))
}

/// The small stories and families, and doors as the story limit grows.
pub fn small() -> Vec<Case> {
    let mut cases = Vec::new();
    for limits in USUAL {
        cases.extend(SMALL.map(|name| Case { name: name.into(), limits, packs: vec![example(name)] }));
        cases.extend(KINDS.map(|(name, draw)| Case {
            name: format!("{name}, {FAMILY} packs"),
            limits,
            packs: family(draw, FAMILY),
        }));
    }
    for (name, guarded) in [("3 doors", false), ("3 guarded doors", true)] {
        let case = |story| Case { name: name.into(), limits: (story, 3, 2), packs: vec![doors(3, guarded)] };
        cases.extend((1..=8).map(case));
    }
    cases
}

/// The stories of a season's size as the story limit grows and under other limits, and the families of that size.
pub fn large() -> Vec<Case> {
    let mut cases = Vec::new();
    for name in LARGE {
        let growing = (2..=8).map(|story| (story, 6, 3));
        let case = |limits| Case { name: name.into(), limits, packs: vec![example(name)] };
        cases.extend(growing.chain(OTHERS).map(case));
    }
    for season in &SEASONS {
        for limits in [(4, 3, 2), (8, 4, 2), (8, 6, 3)] {
            cases.push(Case { name: season.title(), limits, packs: sized(season) });
        }
    }
    cases
}

#[cfg(test)]
mod tests {
    use super::*;

    /// No story of `examples/` is left out of the benchmark.
    #[test]
    fn every_story_is_searched() {
        let folder = Path::new(env!("CARGO_MANIFEST_DIR")).join("../../examples");
        let files = std::fs::read_dir(folder).expect("the examples").map(|file| file.expect("a file").path());
        let packs = files.filter(|file| file.extension().is_some_and(|end| end == "pack"));
        let mut there: Vec<String> = packs.map(|file| file.file_stem().unwrap().to_string_lossy().into()).collect();
        let mut searched: Vec<&str> = SMALL.into_iter().chain(LARGE).collect();
        there.sort();
        searched.sort();
        assert_eq!(there, searched);
    }
}
