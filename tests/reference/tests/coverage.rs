//! The generator really meets what it is there for.

use reference::generate::coverage::Coverage;

/// What must be met, and by how many of the first 8,000 calls at least.
type Wanted = Vec<(String, usize)>;

fn wanted() -> Wanted {
    [refusals(), steps(), lists(), charts_and_packs()].concat()
}

fn refusals() -> Wanted {
    let numbers = (1..=13).chain(21..=25).chain([27]);
    let mut wanted: Wanted = numbers.map(|number| (format!("refused {number:02}"), 3)).collect();
    for name in ["start", "query", "compare", "step", "explained", "search", "ending"] {
        wanted.push((format!("{name}: answered"), 20));
        for number in [2, 3, 4] {
            wanted.push((format!("{name}: refused {number:02}"), 1));
        }
    }
    wanted
}

fn steps() -> Wanted {
    let mut wanted = vec![
        ("step: a seventeenth round needed".to_string(), 50),
        ("step: effects into beliefs".to_string(), 50),
        ("step: triggers with effects into beliefs".to_string(), 20),
        ("a false belief".to_string(), 200),
        ("a nested false belief".to_string(), 100),
    ];
    for rounds in [0, 1, 2, 3, 13, 14, 15, 16] {
        wanted.push((format!("step: settled after {rounds:02} rounds"), 5));
    }
    for rounds in [0, 1, 2, 15, 16] {
        wanted.push((format!("step: too many states after {rounds:02} rounds"), 3));
    }
    for states in [1, 2, 3, 30, 31, 32] {
        wanted.push((format!("step: {states:02} states left"), 3));
    }
    wanted
}

fn lists() -> Wanted {
    let mut wanted =
        vec![("search: list of 1".to_string(), 100), ("search: list with several consenters".to_string(), 20)];
    for length in 2..=8 {
        wanted.push((format!("search: list of {length}"), 20));
        wanted.push((format!("search: story limit {length} matters"), 10));
    }
    for nesting in 1..=3 {
        wanted.push((format!("search: nesting limit {nesting} matters"), 20));
        wanted.push((format!("explained: nesting limit {nesting} matters"), 3));
    }
    for foresight in 2..=6 {
        wanted.push((format!("search: foresight limit {foresight} matters"), 4));
    }
    for limit in ["story", "foresight", "nesting"] {
        wanted.push((format!("search: near miss by the {limit} limit"), 10));
    }
    wanted
}

fn charts_and_packs() -> Wanted {
    let mut wanted = vec![("compare: same in other bytes".to_string(), 50)];
    for length in [0, 1, 2, 3, 20, 40, 61, 62] {
        wanted.push((format!("compare: chain of {length:02}"), 5));
    }
    for size in
        ["1 character", "6 characters", "24 fluents", "32 nodes", "32 actions", "16 triggers", "a domain of 128"]
    {
        wanted.push((format!("size: a pack with {size}"), 5));
    }
    wanted.push(("size: a pack of 8,192 bytes".to_string(), 5));
    wanted
}

#[test]
fn the_generator_meets_what_it_is_there_for() {
    let coverage = Coverage::of(0..8_000);
    let missing: Vec<String> = wanted()
        .into_iter()
        .filter(|(what, least)| coverage.count(what) < *least)
        .map(|(what, least)| format!("{what}: {} of {least}", coverage.count(&what)))
        .collect();
    assert!(missing.is_empty(), "met too seldom: {missing:#?}");
}
