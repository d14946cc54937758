//! The library's sources have nothing that they must not have, and the checks find it where they do.

use audit::{believed, calls, edits, layers, repository, words};

#[test]
fn no_forbidden_word() {
    assert_eq!(words::forbidden(&repository()).expect("the sources"), Vec::<String>::new());
}

#[test]
fn forbidden_words_are_found() {
    assert_eq!(words::uses("decide p = lem p"), ["lem"]);
    assert_eq!(words::uses("choose f = (ac f)"), ["ac"]);
    assert_eq!(words::uses("decide p = Prim.Axiom.lem p"), ["Prim.Axiom"]);
    assert_eq!(words::uses("returns c = ?"), ["?"]);
    assert_eq!(words::uses("-- by lem"), Vec::<&str>::new());
    assert_eq!(words::uses("acted = problem ac_same"), Vec::<&str>::new());
}

#[test]
fn public_calls_ask_nothing() {
    let heads = calls::heads(&repository()).expect("the sources");
    assert_eq!(heads.len(), 22, "six calls, and of eight that C calls the library's function and the export");
    for head in heads {
        assert!(!head.requires(), "{} has a `requires`", head.name);
        assert!(head.ensures(), "{} promises nothing", head.name);
    }
}

/// Each export states what the library's function promises, no more and no less.
#[test]
fn what_c_calls_is_the_librarys() {
    assert_eq!(calls::unlike(&repository()).expect("the sources"), Vec::<String>::new());
    let (one, more) = ("f(x: u8, y: u8) -> u8\n  ensures { A }", "f(\n  x: u8,\n  y: u8,\n) -> u8\n  ensures { A }");
    assert_eq!(calls::said(one), calls::said(more));
    assert_ne!(calls::said(one), calls::said(&one.replace('A', "B")));
}

#[test]
fn a_requires_is_found() {
    let text = "pub fn f(x: usize)\n    requires small { x < 2 }\n    ensures { result ≡ x }".to_string();
    let head = calls::Head { name: "f".into(), text };
    assert!(head.requires() && head.ensures());
}

#[test]
fn definitions_are_reached() {
    let modules = believed::reached(&repository()).expect("the sources");
    let has = |end: &str| modules.iter().any(|module| module.path.ends_with(end) && module.lines > 0);
    for end in [
        "planner/specs/Promises.antt",
        "planner/specs/Ending.antt",
        "transition/specs/Happening.antt",
        "chart/specs/Chart.antt",
        "chart/specs/Call.antt",
        "pack/specs/Number.antt",
        "pack/specs/Grammar.antt",
        "pack/specs/State.antt",
        "pirwodd/specs/Exports.antt",
    ] {
        assert!(has(end), "{end} is not reached");
    }
}

#[test]
fn use_lines_are_read() {
    assert_eq!(believed::used("use Rattle.pack.specs.Syntax.{Node}"), Some(("pack", "Syntax")));
    assert_eq!(believed::used("use Rattle.chart.specs.Laws.Moore as moore"), Some(("chart", "Laws.Moore")));
    assert_eq!(believed::used("use Rattle.pack.specs.declared.table.Table.{Table}"), None);
    assert_eq!(believed::used("use Rattle.std.proofs.Common.{length}"), None);
}

/// Every must-fail edit is on the page of wrong programs, and every edit on it is there.
#[test]
fn wrong_programs_have_their_edits() {
    let page = std::fs::read_to_string(repository().join("docs/CONTRACTS.md")).expect("the page");
    let of = layers::crates(&repository()).expect("crates.txt");
    let cited: Vec<&str> = page.split('`').skip(1).step_by(2).collect();
    let mut there = Vec::new();
    for name in &of {
        there.extend(edits::names(&repository(), name).expect("edits"));
    }
    let uncited: Vec<_> = there.iter().filter(|edit| !cited.contains(&edit.as_str())).collect();
    assert!(uncited.is_empty(), "not on the page: {uncited:?}");
    let named = cited.iter().filter(|word| {
        word.split_once('/').is_some_and(|(name, rest)| of.iter().any(|of| of == name) && !rest.contains('/'))
    });
    let gone: Vec<_> = named.filter(|word| !there.iter().any(|edit| edit == *word)).collect();
    assert!(gone.is_empty(), "on the page and not there: {gone:?}");
}

/// Every file of definitions that a public contract reaches is in the table of what shows that it is not empty, and each
/// law named there is declared in a file that its row names.
#[test]
fn definitions_are_met() {
    let page = std::fs::read_to_string(repository().join("docs/CONTRACTS.md")).expect("the page");
    let (_, section) = page.split_once("## Each definition is met by something").expect("the section");
    let mut named = Vec::new();
    for row in section.lines().filter(|line| line.starts_with("| `")) {
        let cells: Vec<&str> = row.split('|').collect();
        named.extend(audit::paths(cells[1]));
        let words: Vec<&str> = cells[2].split('`').skip(1).step_by(2).collect();
        let (files, laws): (Vec<&str>, Vec<&str>) = words.into_iter().partition(|word| word.contains('/'));
        let text: String = files.iter().map(|file| source(file)).collect();
        for law in laws {
            assert!(text.lines().any(|line| declares(line, law)), "{law} is not declared in {files:?}");
        }
    }
    for module in believed::reached(&repository()).expect("the sources") {
        let path = module.path.to_string_lossy().into_owned();
        let known = path.contains("/Laws/") || named.iter().any(|name| path.ends_with(&format!("crates/{name}.antt")));
        assert!(known, "{path} is not in the table");
    }
}

fn source(path: &str) -> String {
    std::fs::read_to_string(repository().join(format!("crates/{path}.antt"))).expect(path)
}

fn declares(line: &str, law: &str) -> bool {
    line.trim_start().strip_prefix("pub ").is_some_and(|rest| rest.starts_with(&format!("{law} :")))
}

#[test]
fn paths_in_a_cell_are_read() {
    assert_eq!(audit::paths(" `pack/specs/State`, `Condition` "), ["pack/specs/State", "pack/specs/Condition"]);
    assert!(declares("  pub starts_one : (C : ℕ)", "starts_one") && !declares("pub starts_one_more : ℕ", "starts_one"));
}
