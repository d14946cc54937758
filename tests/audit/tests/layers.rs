//! A layer cites of another only what that promises, and the check finds it where one does not.

use audit::{layers, repository};

fn foreign(of: &str, line: &str) -> usize {
    let crates: Vec<String> = ["pack", "chart", "pirwodd"].map(String::from).into();
    layers::foreign(&crates, of, line).len()
}

#[test]
fn no_layer_cites_what_another_keeps() {
    assert_eq!(layers::trespasses(&repository()).expect("the sources"), Vec::<String>::new());
}

#[test]
fn another_layers_proofs_are_found() {
    assert_eq!(foreign("chart", "use Rattle.pack.proofs.Judging.{judged}"), 1);
    assert_eq!(foreign("chart", "use Rattle.pack.proofs.Judging as judging"), 1);
    assert_eq!(foreign("chart", "new: ghost use Rattle.pack.proofs.judge.utility.Proof.{spec};"), 1);
    assert_eq!(foreign("chart", "  both (Rattle.pack.proofs.A.x) Rattle.pirwodd.proofs.B.y"), 2);
    assert_eq!(foreign("pack", "use Rattle.pack.proofs.Judging as judging"), 0);
}

#[test]
fn another_layers_inner_promises_are_found() {
    assert_eq!(foreign("pirwodd", "ghost use Rattle.chart.specs.Inner.Pairs.{Met};"), 1);
    assert_eq!(foreign("pirwodd", "use Rattle.chart.specs.Inner.Pairs as pairs"), 1);
    assert_eq!(foreign("chart", "use Rattle.chart.specs.Inner.Pairs as pairs"), 0);
    assert_eq!(foreign("pirwodd", "use Rattle.chart.specs.Duties.Pairs as pairs"), 0);
    assert_eq!(foreign("pirwodd", "use Rattle.chart.specs.Laws.Inner as laws"), 0);
}

#[test]
fn what_the_toolchain_makes_may_be_cited() {
    for module in ["Reads", "Kinds", "Statement", "Tie", "Lts.Start", "Statement.{Spec}", "Reads as reads"] {
        assert_eq!(foreign("chart", &format!("use Rattle.pack.proofs.judge.utility.{module}")), 0, "{module}");
    }
    assert_eq!(foreign("chart", "use Rattle.pack.proofs.judge.utility.ReadsMore"), 1);
    assert_eq!(foreign("chart", "use Rattle.io.proofs.read_full.Proof"), 0, "a library of the kit is no layer");
}

#[test]
fn the_crates_are_listed() {
    let crates = layers::crates(&repository()).expect("crates.txt");
    let libraries = ["pack", "chart", "transition", "planner", "probe", "pirwodd", "ending"];
    assert_eq!(crates, [&libraries[..], &["probe_c", "pirwodd_c"]].concat());
}
