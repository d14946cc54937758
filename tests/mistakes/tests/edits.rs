//! Every planted mistake still fits the sources, and the table of mistakes lists each with calls that showed it.

use std::fs;

use mistakes::{all, workspace};

#[test]
fn every_edit_fits_exactly_once() {
    let mistakes = all();
    assert!(mistakes.len() >= 30, "only {} mistakes", mistakes.len());
    for mistake in mistakes {
        let source = fs::read_to_string(workspace().join("reference/src").join(&mistake.source)).unwrap();
        let planted = mistake.planted(&source).unwrap();
        assert_ne!(planted, source, "{}", mistake.name);
        assert!(!mistake.wrong.is_empty());
    }
}

#[test]
fn every_mistake_is_in_the_table_and_was_shown() {
    let table = fs::read_to_string(workspace().join("MISTAKES.md")).unwrap();
    for mistake in all() {
        let row = table.lines().find(|line| line.starts_with(&format!("| {} |", mistake.name)));
        let row = row.unwrap_or_else(|| panic!("{} is not in the table", mistake.name));
        let seen: usize = row.split('|').nth(2).unwrap().trim().parse().unwrap();
        assert!(seen > 0, "{} was not shown by any call", mistake.name);
    }
}
