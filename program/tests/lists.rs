//! Lists of actions by number and by title; titles may have commas and `!`.

use program::list::actions;
use program::Refused;

const TITLES: [&str; 5] = ["Ada runs", "Ada runs, and falls", "and falls", "Stop, thief!", "7"];

fn found(list: &str) -> Result<Vec<usize>, String> {
    let titles = TITLES.map(str::to_string);
    actions(&titles, list).map_err(|Refused(message)| message.lines().next().unwrap_or_default().to_string())
}

#[test]
fn numbers() {
    assert_eq!(found("0,1,2"), Ok(vec![0, 1, 2]));
    assert_eq!(found(" 4 , 0 "), Ok(vec![4, 0]));
    assert_eq!(found(""), Ok(vec![]));
    assert_eq!(found(" "), Ok(vec![]));
}

#[test]
fn titles_with_commas() {
    assert_eq!(found("Stop, thief!"), Ok(vec![3]));
    assert_eq!(found("0,Stop,  thief!,Ada   runs"), Ok(vec![0, 3, 0]));
    assert_eq!(found("Ada runs, and falls"), Ok(vec![1]), "the longest title");
    assert_eq!(found("Ada runs, and falls, and falls"), Ok(vec![1, 2]));
    assert_eq!(found("Ada runs, Stop, thief!"), Ok(vec![0, 3]), "a shorter one where the longest doesn't fit");
}

/// The longest title that leaves a list, and not just the longest.
#[test]
fn titles_that_begin_alike() {
    let titles = ["a", "a, b", "b, c"].map(str::to_string);
    assert_eq!(actions(&titles, "a, b, c").ok(), Some(vec![0, 2]));
    assert_eq!(actions(&titles, "a, b").ok(), Some(vec![1]));
}

#[test]
fn digits_are_a_number() {
    let refused = |piece: &str| Err(format!("pirwodd: there is no action '{piece}'. The actions are"));
    assert_eq!(found("7"), refused("7"), "the action of that title is 4");
    assert_eq!(found("5"), refused("5"));
    assert_eq!(found("+1"), refused("+1"));
}

#[test]
fn the_first_that_is_none_is_told() {
    let refused = |piece: &str| Err(format!("pirwodd: there is no action '{piece}'. The actions are"));
    assert_eq!(found("0,Stop, thief!,Ben runs,9"), refused("Ben runs"));
    assert_eq!(found("0,"), refused(""));
    assert_eq!(found("Stop"), refused("Stop"));
}
