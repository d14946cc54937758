//! A pack printed and read again is the same pack, and a story printed and read again has the same names too.

use reference::generate;
use reference::generate::random::Random;
use reference::graph::Node;
use story::{dot, print, read, Problem, Story};

/// Prints a story and reads it again: same pack, same names.
fn again(story: &Story) -> Story {
    let text = print::story(story);
    let again = read(text.as_bytes()).unwrap_or_else(|problems| panic!("{problems:?}\n{text}")).story;
    assert!(again.bytes() == story.bytes(), "{text}");
    assert_eq!(again.names, story.names, "{text}");
    again
}

/// The accepted packs among the first generated calls. Damaged ones that are still accepted are among them.
#[test]
fn generated_packs() {
    let mut accepted = 0;
    for seed in 0..10_000 {
        let pack = generate::call(seed).pack;
        let Ok(story) = Story::of_pack(&pack) else { continue };
        assert_eq!(again(&story).bytes(), pack, "seed {seed}");
        accepted += 1;
    }
    assert!(accepted > 7_000, "{accepted}");
}

/// Packs with all counts as large as they may be, and packs of 8,192 bytes.
#[test]
fn largest_packs() {
    let mut longest = 0;
    for seed in 0..300 {
        let r = &mut Random::new(seed);
        let mut pack = generate::packs::large(r);
        if seed % 3 == 0 {
            pack = generate::packs::small(r);
            generate::packs::lengthen(&mut pack, 8_192);
        }
        let bytes = generate::draft::bytes(&pack);
        let Ok(story) = Story::of_pack(&bytes) else { continue };
        assert_eq!(again(&story).bytes(), bytes, "seed {seed}");
        longest += (bytes.len() == 8_192) as usize;
    }
    assert!(longest > 50, "{longest}");
}

/// Tables whose views are doubled, out of reach or at the end of long chains.
#[test]
fn tables_of_views() {
    for seed in 0..2_000 {
        let r = &mut Random::new(seed);
        let mut pack = generate::draft::empty(r.from(1, 6), &[2, 1, 128]);
        let count = r.from(1, 32);
        pack.nodes = generate::tables::random(r, pack.characters, &pack.domains, count);
        if r.chance(1, 3) {
            // A line of views, each believed in the one before it.
            let last = count - 1;
            pack.nodes.iter_mut().enumerate().for_each(|(i, node)| node.beliefs.fill((i + 1).min(last)));
        }
        let bytes = generate::draft::bytes(&pack);
        let story = Story::of_pack(&bytes).unwrap();
        assert_eq!(again(&story).bytes(), bytes, "seed {seed}");
    }
}

/// Text, damaged in some places, is read or refused: what is read can be printed and read again, and what is wrong is
/// told in the order of the text, at places that are in it.
#[test]
fn damaged_text() {
    let (mut accepted, mut refused, mut several) = (0, 0, 0);
    for seed in 0..40_000 {
        let r = &mut Random::new(seed);
        let story = r.pick(&STORIES);
        let bytes = damaged(r, story);
        match read(&bytes) {
            Ok(reading) => {
                again(&reading.story);
                dot::story(&reading.story);
                reading.story.stated();
                accepted += 1;
            }
            Err(problems) => {
                told(&problems, &bytes);
                refused += 1;
                several += (problems.len() > 1) as usize;
            }
        }
    }
    assert!(accepted > 2_000 && refused > 20_000 && several > 5_000, "{accepted} {refused} {several}");
}

/// Each problem stands in the text, behind those before it, and says what is wrong and what to write.
fn told(problems: &[Problem], bytes: &[u8]) {
    assert!(!problems.is_empty() && problems.windows(2).all(|two| two[0].at <= two[1].at), "{problems:?}");
    let text = String::from_utf8_lossy(bytes);
    for problem in problems {
        let line = text.lines().nth(problem.at.line - 1).unwrap_or("");
        assert!((1..=line.chars().count() + 1).contains(&problem.at.column) && problem.width >= 1, "{problem:?}");
        let shown = problem.show("error", "x.story", &text);
        assert!(
            shown.starts_with(&format!("x.story:{}: error: ", problem.at)) && shown.contains("^\nhelp: "),
            "{shown}"
        );
    }
}

/// Lines and words taken out, doubled or exchanged, and bytes changed.
fn damaged(r: &mut Random, text: &str) -> Vec<u8> {
    let mut lines: Vec<&str> = text.split_inclusive('\n').collect();
    if r.chance(1, 2) {
        damage(r, &mut lines, &["the truth:\n", "    everyone believes this\n", "action go:\n", "    and so on\n"]);
    }
    let text = lines.concat();
    let mut words: Vec<&str> = text.split_inclusive([' ', '\n', ',']).collect();
    for _ in 0..r.below(3) {
        let others =
            ["is ", "and ", "what ", "believes ", ":\n", "99999 ", "if ", "never ", "0 to 500,", "nobody ", "this "];
        damage(r, &mut words, &others);
    }
    let mut bytes = words.concat().into_bytes();
    if r.chance(1, 4) {
        let i = r.below(bytes.len());
        bytes[i] = r.below(256) as u8;
    }
    bytes
}

/// Takes one out, doubles one, exchanges two, or puts another in its place.
fn damage<'t>(r: &mut Random, parts: &mut Vec<&'t str>, others: &[&'t str]) {
    let (i, j) = (r.below(parts.len()), r.below(parts.len()));
    match r.below(4) {
        0 => drop(parts.remove(i)),
        1 => parts.insert(i, parts[j]),
        2 => parts.swap(i, j),
        _ => parts[i] = r.pick(others),
    }
}

/// Any bytes at all.
#[test]
fn any_bytes() {
    for seed in 0..20_000 {
        let r = &mut Random::new(seed);
        let length = r.below(200);
        let signs = b"characters facts:is,believes\n#\r\t\0\xC3\xA9\xFF-_.'09";
        let bytes: Vec<u8> = (0..length).map(|_| signs[r.below(signs.len())]).collect();
        match read(&bytes) {
            Ok(reading) => drop(again(&reading.story)),
            Err(problems) => told(&problems, &bytes),
        }
    }
}

/// Stories as people write them: all that the form has.
#[test]
fn written_stories() {
    for text in STORIES {
        let story = read(text.as_bytes()).unwrap_or_else(|problems| panic!("{problems:?}\n{text}")).story;
        let told = print::story(&again(&story));
        assert_eq!(told, print::story(&read(told.as_bytes()).unwrap().story));
        let pack = Story::of_pack(&story.bytes()).unwrap();
        assert_eq!(again(&pack).bytes(), story.bytes());
    }
}

/// Line ends of two signs, a mark at the beginning, tabs and remarks change nothing.
#[test]
fn other_layouts() {
    for text in STORIES {
        let bytes = read(text.as_bytes()).unwrap().story.bytes();
        let other = format!("\u{FEFF}# a remark\r\n\r\n{}", text.replace('\n', " # é\r\n").replace("    ", "\t"));
        assert_eq!(read(other.as_bytes()).unwrap().story.bytes(), bytes);
    }
}

/// A view at the end of a long chain has a name, for a long heading reads badly.
#[test]
fn long_chains() {
    let mut pack = generate::draft::empty(1, &[7]);
    pack.nodes = (0..7).map(|i| Node { values: vec![i as u8], beliefs: vec![(i + 1).min(6)] }).collect();
    let story = Story::of_pack(&generate::draft::bytes(&pack)).unwrap();
    let text = print::story(&again(&story));
    let chain =
        "\nwhat A believes A believes A believes A believes:\n    fact 0 is 4\n    everyone believes number 5\n";
    assert!(text.contains(chain));
    assert!(text.contains("\nview number 5:\n    fact 0 is 5\n    everyone believes number 6\n"));
}

const STORIES: [&str; 11] = [
    include_str!("../../../story/tests/everything.story"),
    include_str!("../../../examples/alice.story"),
    include_str!("../../../examples/letter.story"),
    include_str!("../../../examples/lie.story"),
    include_str!("../../../examples/market.story"),
    include_str!("../../../examples/necklace.story"),
    include_str!("../../../examples/p.story"),
    include_str!("../../../examples/safe.story"),
    include_str!("../../../examples/shoes.story"),
    include_str!("../../../examples/thornby.story"),
    include_str!("../../../examples/will.story"),
];
