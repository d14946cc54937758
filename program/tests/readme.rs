//! The first page begins with the two commands, and shows what the program prints.

mod common;

use common::pirwodd;

const PAGE: &str = include_str!("../../README.md");

/// A text as the page quotes it.
fn quoted(text: &str) -> String {
    let line = |line: &str| if line.is_empty() { "\n".to_string() } else { format!("    {line}\n") };
    text.lines().map(line).collect()
}

#[test]
fn it_begins_with_the_two_commands() {
    let commands: Vec<&str> = PAGE.lines().skip(2).take(2).filter_map(|line| line.split("  ").nth(2)).collect();
    assert_eq!(commands, ["./run examples/letter.story", ".ci/run"]);
}

#[test]
fn the_first_story_is_what_is_printed() {
    let (status, told, _) = pirwodd(&["play", "letter.story"]);
    let shown = format!("`./run examples/letter.story` prints:\n\n{}\nThe chart", quoted(&told));
    assert!(status == 0 && PAGE.contains(&shown), "README.md does not show:\n{shown}");
}

/// Each command that the help has is a row's, and no other.
#[test]
fn the_commands_are_those_of_the_help() {
    let help = pirwodd(&["--help"]).1;
    let commands = help.lines().filter_map(|line| line.strip_prefix("pirwodd ")?.split(' ').next());
    let table = PAGE.split_once("| Command | What it gives |\n|---|---|\n").expect("the table").1;
    let cells = table.lines().take_while(|line| line.starts_with('|')).map(|row| row.split(" | ").next().unwrap_or(""));
    let named =
        cells.flat_map(|cell| cell.split('`').skip(1).step_by(2)).filter_map(|command| command.split(' ').next());
    assert_eq!(named.collect::<Vec<_>>(), commands.collect::<Vec<_>>());
}

#[test]
fn the_rust_that_is_needed() {
    let workspace = include_str!("../../tests/Cargo.toml");
    let needed = workspace.lines().find_map(|line| line.strip_prefix("rust-version = \"")?.strip_suffix('"'));
    let said = format!("Rust (cargo and rustc, {} or later)", needed.expect("a version"));
    assert!(PAGE.contains(&said), "README.md does not say: {said}");
}
