//! How many tests each crate of the workspace has, so that one that is deleted is missed.

use crate::files;
use std::fs;
use std::io::{Error, Result};
use std::path::Path;

/// A crate's name, its functions marked `#[test]`, and the examples on its pages, which cargo runs too.
#[derive(Debug, PartialEq)]
pub struct Count {
    pub name: String,
    pub tests: usize,
    pub examples: usize,
}

/// What `tests/COUNTS.txt` lists, a crate a line.
pub fn listed(repository: &Path) -> Result<Vec<Count>> {
    let text = fs::read_to_string(repository.join("tests/COUNTS.txt"))?;
    text.lines().filter(|line| !line.starts_with('#')).map(read).collect()
}

fn read(line: &str) -> Result<Count> {
    let wrong = || Error::other(format!("tests/COUNTS.txt: '{line}' is not a name and two numbers"));
    let words: Vec<&str> = line.split_whitespace().collect();
    let [name, tests, examples] = words[..] else { return Err(wrong()) };
    let number = |word: &str| word.parse().map_err(|_| wrong());
    Ok(Count { name: name.into(), tests: number(tests)?, examples: number(examples)? })
}

/// What the sources of the workspace's crates have, in the order of its members.
pub fn counted(repository: &Path) -> Result<Vec<Count>> {
    let workspace = fs::read_to_string(repository.join("tests/Cargo.toml"))?;
    let members = workspace.lines().find(|line| line.starts_with("members")).unwrap_or("");
    let folders = members.split('"').skip(1).step_by(2).map(|member| repository.join("tests").join(member));
    folders.map(|folder| count(&folder)).collect()
}

fn count(folder: &Path) -> Result<Count> {
    let package = fs::read_to_string(folder.join("Cargo.toml"))?;
    let name = package.lines().find(|line| line.starts_with("name = ")).and_then(|line| line.split('"').nth(1));
    let name = name.ok_or_else(|| Error::other(format!("{} has no name", folder.display())))?.to_string();
    let mut text = String::new();
    for file in files(folder, ".rs")? {
        text += &fs::read_to_string(file)?;
    }
    Ok(Count { name, tests: tests(&text), examples: examples(&text) })
}

/// The functions of a source that are marked as tests.
pub fn tests(text: &str) -> usize {
    text.lines().filter(|line| line.trim() == "#[test]").count()
}

/// The examples on the pages that are made of a source: what stands between two fences of a comment.
pub fn examples(text: &str) -> usize {
    let comment = |line: &str| line.trim().strip_prefix("///").or(line.trim().strip_prefix("//!")).map(str::to_string);
    text.lines().filter_map(comment).filter(|line| line.trim().starts_with("```")).count() / 2
}

/// What differs between the list and the sources, a line for each crate.
pub fn differences(listed: &[Count], counted: &[Count]) -> Vec<String> {
    let mut found = Vec::new();
    for count in counted {
        let Count { name, tests, examples } = count;
        match listed.iter().find(|other| other.name == *name) {
            Some(other) if other == count => {}
            Some(other) => found.push(format!(
                "{name} has {tests} tests and {examples} examples, and tests/COUNTS.txt lists {} and {}",
                other.tests, other.examples
            )),
            None => found.push(format!("{name} is not in tests/COUNTS.txt")),
        }
    }
    let gone = listed.iter().filter(|count| counted.iter().all(|other| other.name != count.name));
    found.extend(gone.map(|count| format!("{} is in tests/COUNTS.txt and no crate of the workspace", count.name)));
    found
}
