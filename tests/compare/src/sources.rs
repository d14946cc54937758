//! The library's own sources as Rust: their contracts left out, each step counted. So the steps of a search can be
//! counted as the proved code makes them, and what one part of it saves by turning that part off. Nothing is proved by
//! that.

use std::fs;
use std::io::{Error, Result};
use std::path::{Path, PathBuf};
use std::process::Command;

/// The crates, each over those before it.
const CRATES: [&str; 4] = ["pack", "chart", "transition", "planner"];

/// A changed line: the file, what it says, and what it is to say.
type Edit = (&'static str, &'static str, &'static str);

/// Something that the search does without.
pub struct Off {
    pub name: &'static str,
    pub edits: &'static [Edit],
}

const STEPS: Edit = ("planner/steps.rs", "if step_is(work, at, id, root, action) {", "if false {");
const EXPLAINED: Edit = (
    "planner/explain.rs",
    "if let Some(Known::Explained(verdict)) = known_of(recall(work, p, slot, key)) {",
    "if let Some(Known::Explained(verdict)) = known_of(recall(work, p, slot, key)).filter(|_| false) {",
);
const REACHED: Edit = (
    "planner/explain.rs",
    "if let Some(Known::Reached(found)) = known_of(recall(work, p, slot, key)) {",
    "if let Some(Known::Reached(found)) = known_of(recall(work, p, slot, key)).filter(|_| false) {",
);
const AUTHORS: Edit =
    ("planner/search.rs", "if let Some(Known::NoEnding) = known_of(recall(work, p, slot, key)) {", "if false {");
const REPEATS: Edit = ("planner/search.rs", "if repeats(work, p, slot, ahead.done) {", "if false {");
const NO_REASON: Edit = (
    "planner/explain.rs",
    "if d.nesting.0 == 0 || pointless(pack, places, p, work, slot, d) {",
    "if d.nesting.0 == 0 {",
);
const NO_ENDING: Edit =
    ("planner/search.rs", "if !can_exceed(pack, places[UTILITIES] as usize, g.base) {", "if false {");
const CONDITIONS: Edit =
    ("planner/prune.rs", "if !holds(pack, places[ACTION * x] as usize, work, t, 0) {", "if false {");
const LOOK: Edit = ("planner/prune.rs", "0 < h.left || could_leave(pack, places, p, work, t, x, h)", "true");

pub const NOTHING_OFF: Off = Off { name: "nothing", edits: &[] };

pub const OFF: [Off; 9] = [
    Off { name: "memory of steps", edits: &[STEPS] },
    Off { name: "memory of verdicts", edits: &[EXPLAINED] },
    Off { name: "memory of characters' lists", edits: &[REACHED] },
    Off { name: "memory of the author's lists", edits: &[AUTHORS] },
    Off { name: "repeats on the author's path", edits: &[REPEATS] },
    Off { name: "bound on utilities", edits: &[NO_REASON, NO_ENDING] },
    Off { name: "conditions before consenters", edits: &[CONDITIONS] },
    Off { name: "look before a last action", edits: &[LOOK] },
    Off {
        name: "all of them",
        edits: &[STEPS, EXPLAINED, REACHED, AUTHORS, REPEATS, NO_REASON, NO_ENDING, CONDITIONS, LOOK],
    },
];

/// Without the memory of steps, what facts save shows; without that of the author's lists besides, what repeats save.
pub const APART: [Off; 3] = [
    NOTHING_OFF,
    Off { name: "memory of steps", edits: &[STEPS] },
    Off { name: "memory of steps and of the author's lists", edits: &[STEPS, AUTHORS] },
];

/// A program that searches packs and prints the steps of each search: a line `T K E FILE` each on its input. With a
/// number of seconds as its argument it ends after these, with a line of `more` and the steps of the search that it was
/// at.
const PROGRAM: &str = r#"
use planner::limits::{Foresight, Nesting, Story};

fn main() {
    if let Some(seconds) = std::env::args().nth(1) {
        let limit = std::time::Duration::from_secs_f64(seconds.parse().unwrap());
        std::thread::spawn(move || {
            std::thread::sleep(limit);
            println!("more {}", transition::step::STEPS.load(std::sync::atomic::Ordering::Relaxed));
            std::process::exit(0);
        });
    }
    let (mut work, mut list) = (vec![0u8; 49152], [0u8; 8]);
    for line in std::io::stdin().lines() {
        let line = line.unwrap();
        let words: Vec<&str> = line.splitn(4, ' ').collect();
        let limit = |i: usize| words[i].parse().unwrap();
        let pack = std::fs::read(words[3]).unwrap();
        transition::step::STEPS.store(0, std::sync::atomic::Ordering::Relaxed);
        let limits = (Story(limit(0)), Foresight(limit(1)), Nesting(limit(2)));
        planner::search::search(&pack, limits.0, limits.1, limits.2, &mut list, &mut work);
        println!("{}", transition::step::STEPS.load(std::sync::atomic::Ordering::Relaxed));
    }
}
"#;

const COUNTER: &str = "pub static STEPS: std::sync::atomic::AtomicU64 = std::sync::atomic::AtomicU64::new(0);\n\n";
const COUNT: &str = "{\n    STEPS.fetch_add(1, std::sync::atomic::Ordering::Relaxed);\n    if !holds(";

/// Builds the program in a folder with something turned off; its path.
pub fn build(repository: &Path, folder: &Path, off: &Off) -> Result<PathBuf> {
    fs::create_dir_all(folder)?;
    for name in CRATES {
        translate(&repository.join("crates").join(name).join("src"), &folder.join(name))?;
    }
    change(&folder.join("transition/step.rs"), "pub fn step_slot(", &format!("{COUNTER}pub fn step_slot("))?;
    change(&folder.join("transition/step.rs"), "{\n    if !holds(", COUNT)?;
    for (file, old, new) in off.edits {
        change(&folder.join(file), old, new)?;
    }
    fs::write(folder.join("main.rs"), PROGRAM)?;
    for (i, name) in CRATES.iter().enumerate() {
        compile(folder, &format!("{name}/lib.rs"), name, &CRATES[..i], true)?;
    }
    compile(folder, "main.rs", "steps", &CRATES, false)?;
    Ok(folder.join("steps"))
}

/// Each source file, without the lines of its contracts and of how they are proved.
fn translate(from: &Path, to: &Path) -> Result<()> {
    fs::create_dir_all(to)?;
    for entry in fs::read_dir(from)? {
        let path = entry?.path();
        let (mut text, mut ghost) = (String::new(), String::new());
        for line in fs::read_to_string(&path)?.lines() {
            ghost.push_str(line.trim());
            match ends(&ghost) {
                Some(true) => ghost.clear(),
                Some(false) => ghost.push('\n'),
                None => {
                    ghost.clear();
                    text.push_str(line);
                    text.push('\n');
                }
            }
        }
        fs::write(to.join(path.file_stem().expect("a name")).with_extension("rs"), text)?;
    }
    Ok(())
}

/// Whether lines that are of proofs alone end here, and nothing where they are not: a contract may take several.
fn ends(ghost: &str) -> Option<bool> {
    let begins = |words: &[&str]| words.iter().any(|word| ghost.starts_with(word));
    let closed = |open, close| ghost.matches::<char>(open).count() == ghost.matches::<char>(close).count();
    if begins(&["ghost use "]) {
        Some(ghost.ends_with(';'))
    } else if begins(&["ghost ", "requires ", "ensures "]) {
        Some(closed('{', '}'))
    } else if begins(&["#![tactic(", "#[tactic(", "#[cycle("]) {
        Some(closed('[', ']'))
    } else {
        None
    }
}

fn change(file: &Path, old: &str, new: &str) -> Result<()> {
    let text = fs::read_to_string(file)?;
    match text.matches(old).count() {
        1 => fs::write(file, text.replace(old, new)),
        n => Err(Error::other(format!("{}: '{old}' stands there {n} times", file.display()))),
    }
}

fn compile(folder: &Path, source: &str, name: &str, over: &[&str], library: bool) -> Result<()> {
    let mut rustc = Command::new("rustc");
    rustc.args(["--edition=2021", "-O", "-Awarnings", "--crate-name", name, "-L"]).arg(folder).current_dir(folder);
    if library {
        rustc.args(["--crate-type", "rlib"]);
    }
    for other in over {
        rustc.arg("--extern").arg(format!("{other}=lib{other}.rlib"));
    }
    match rustc.arg(source).status()?.success() {
        true => Ok(()),
        false => Err(Error::other(format!("rustc does not take {source}"))),
    }
}

#[cfg(test)]
mod tests {
    use super::*;

    /// What is turned off for counting is still in the sources, each text once in its file.
    #[test]
    fn the_edits_fit() {
        let crates = Path::new(env!("CARGO_MANIFEST_DIR")).join("../../crates");
        for (file, old, _) in OFF.iter().chain(&APART).flat_map(|off| off.edits) {
            let (name, module) = file.split_once('/').expect("a crate and a file");
            let source = crates.join(name).join("src").join(module).with_extension("rt");
            let text = fs::read_to_string(&source).expect("a source file");
            assert_eq!(text.matches(old).count(), 1, "{}: '{old}'", source.display());
        }
    }
}
