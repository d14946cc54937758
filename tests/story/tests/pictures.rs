//! Pictures: what is printed is Graphviz's language, and it shows the beliefs that the pack has.

use std::collections::{HashMap, HashSet};

use reference::chart;
use reference::generate;
use story::pack::Node;
use story::{dot, Story};

/// The part of Graphviz's language that pictures use, read.
struct Picture {
    boxes: HashSet<String>,
    /// Ends and label of each arrow.
    arrows: Vec<(String, String, String)>,
}

/// Reads a picture line by line: an opening, a closing, a setting, a box or an arrow.
fn picture(text: &str) -> Picture {
    let mut picture = Picture { boxes: HashSet::new(), arrows: Vec::new() };
    let mut depth = 0;
    for line in text.lines().map(str::trim) {
        if line == "}" {
            depth -= 1;
            assert!(depth >= 0);
        } else if let Some(opened) = line.strip_suffix(" {") {
            let (kind, name) = opened.split_once(' ').unwrap();
            assert_eq!(kind, if depth == 0 { "digraph" } else { "subgraph" });
            identifier(name);
            depth += 1;
        } else {
            assert!(depth > 0, "{line}");
            statement(line.strip_suffix(';').unwrap(), &mut picture);
        }
    }
    assert_eq!(depth, 0);
    picture
}

fn statement(line: &str, picture: &mut Picture) {
    let Some((subject, settings)) = line.split_once(" [") else {
        setting(line);
        return;
    };
    let settings = read_settings(settings.strip_suffix(']').unwrap());
    if subject == "node" {
        return;
    }
    let label = settings["label"].clone();
    match subject.split_once(" -> ") {
        Some((from, to)) => picture.arrows.push((from.to_string(), to.to_string(), label)),
        None => {
            identifier(subject);
            assert!(picture.boxes.insert(subject.to_string()), "{subject} twice");
        }
    }
}

fn identifier(name: &str) {
    assert!(name.starts_with(|sign: char| sign.is_ascii_alphabetic()), "{name}");
    assert!(name.chars().all(|sign| sign.is_ascii_alphanumeric() || sign == '_'), "{name}");
}

/// `name=value`, the value a word, a number or a text in quotes.
fn setting(text: &str) -> (String, String) {
    let (name, value) = text.split_once('=').unwrap();
    identifier(name);
    let Some(quoted) = value.strip_prefix('"') else {
        assert!(value.chars().all(|sign| sign.is_ascii_alphanumeric()), "{value}");
        return (name.to_string(), value.to_string());
    };
    let quoted = quoted.strip_suffix('"').unwrap();
    assert!(!quoted.replace("\\\\", "").replace("\\\"", "").contains('"'), "{text}");
    (name.to_string(), quoted.to_string())
}

/// Settings with commas between them; only the last, the label, may have commas in it.
fn read_settings(text: &str) -> HashMap<String, String> {
    let (before, label) = text.rsplit_once("label=").unwrap_or((text, ""));
    let mut settings: HashMap<String, String> = before.split(", ").filter(|one| !one.is_empty()).map(setting).collect();
    if !label.is_empty() {
        settings.extend([setting(&format!("label={label}"))]);
    }
    settings
}

/// The beliefs that the arrows between views show.
fn beliefs(picture: &Picture, nodes: usize, characters: usize) -> Vec<Vec<Option<usize>>> {
    let mut found = vec![vec![None; characters]; nodes];
    for (from, to, label) in &picture.arrows {
        let (Some(from), Some(to)) = (from.strip_prefix('n'), to.strip_prefix('n')) else { continue };
        for name in label.replace(" and ", ", ").split(", ") {
            let character = (name.as_bytes()[0] - b'A') as usize;
            let place = &mut found[from.parse::<usize>().unwrap()][character];
            assert_eq!(*place, None, "{name} has one belief in each view");
            *place = Some(to.parse().unwrap());
        }
    }
    found
}

fn check(text: &str, nodes: &[Node], characters: usize) -> Picture {
    let picture = picture(text);
    for (from, to, _) in &picture.arrows {
        assert!(picture.boxes.contains(from) && picture.boxes.contains(to), "{from} -> {to}");
    }
    let expected: Vec<Vec<Option<usize>>> =
        nodes.iter().map(|node| node.beliefs.iter().map(|&next| Some(next)).collect()).collect();
    assert_eq!(beliefs(&picture, nodes.len(), characters), expected);
    picture
}

#[test]
fn generated_packs() {
    let mut pictures = 0;
    for seed in 0..3_000 {
        let Ok(story) = Story::of_pack(&generate::call(seed).pack) else { continue };
        let pack = &story.pack;
        let whole = check(&dot::story(&story), &pack.nodes, pack.characters);
        let expected = pack.nodes.len() + pack.domains.len() + pack.actions.len() + pack.triggers.len();
        assert_eq!(whole.boxes.len(), expected);
        let chart = chart::bytes(&reference::pack::read(&story.bytes()).unwrap().nodes);
        let picture = dot::chart(&story, &chart).unwrap();
        assert_eq!(check(&picture, &pack.nodes, pack.characters).boxes.len(), pack.nodes.len());
        pictures += 1;
    }
    assert!(pictures > 2_000, "{pictures}");
}

/// Every effect and every test of a story has its arrow.
#[test]
fn arrows() {
    let story = story::read(include_bytes!("../../../examples/lie.story")).unwrap().story;
    let picture = picture(&dot::story(&story));
    let arrow = |from: &str, to: &str, label: &str| (from.to_string(), to.to_string(), label.to_string());
    let mut arrows = picture.arrows.clone();
    arrows.retain(|(from, ..)| !from.starts_with('n'));
    let expected = [
        arrow("f1", "a0", "in the house"),
        arrow("a0", "f0", "the butler believes\\nin the garden"),
        arrow("f1", "a1", "in the house"),
        arrow("a1", "f1", "in the garden"),
        arrow("f1", "a2", "in the garden"),
        arrow("f0", "a2", "in the garden"),
        arrow("a2", "f0", "with the butler"),
        arrow("f1", "a3", "in the garden"),
        arrow("f2", "a3", "in the house"),
        arrow("a3", "f2", "with the heir"),
    ];
    assert_eq!(arrows, expected);
}
