//! Long lines become no more, and are counted by characters.

use audit::lengths::{is_long, long, verdict, BOUND};
use audit::repository;

#[test]
fn no_more_long_lines() {
    verdict(long(&repository()).expect("the sources").len(), BOUND).expect("no more than the bound");
}

#[test]
fn characters_are_counted() {
    assert!(!is_long(&"·".repeat(120)) && is_long(&"·".repeat(121)) && is_long(&"x".repeat(121)));
}

#[test]
fn more_than_the_bound_is_a_fault() {
    assert!(verdict(8, 7).expect_err("a fault").contains("at most 7 may"));
    assert!(verdict(6, 7).expect("no fault").contains("lower BOUND"));
    assert!(!verdict(7, 7).expect("no fault").contains("lower"));
}
