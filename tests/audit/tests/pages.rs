//! The pages say what is there: the files that they name, and how much there is to believe.

use audit::pages::{is_there, named};
use audit::{believed, layers, repository};
use std::fs;

const PAGES: [&str; 7] = [
    "README.md",
    "docs/ARCHITECTURE.md",
    "docs/CONTRACTS.md",
    "docs/DECISIONS.md",
    "docs/PACK.md",
    "tests/README.md",
    "tests/FIGURES.md",
];

#[test]
fn files_that_pages_name_are_there() {
    let repository = repository();
    let crates = layers::crates(&repository).expect("crates.txt");
    let mut gone = Vec::new();
    for page in PAGES {
        let text = fs::read_to_string(repository.join(page)).expect(page);
        let paths = named(&text, &crates);
        gone.extend(paths.iter().filter(|path| !is_there(&repository, path)).map(|path| format!("{page}: {path}")));
    }
    assert!(gone.is_empty(), "{gone:#?}");
}

#[test]
fn names_of_files_are_found() {
    let crates = ["pack".to_string()];
    let text = "in `pack/src/number` and `crates/pack/specs/Laws/Table.antt`, not `tests/audit` or `pack/edit`";
    assert_eq!(named(text, &crates), ["pack/src/number", "pack/specs/Laws/Table.antt"]);
    assert!(is_there(&repository(), "pack/src/number") && is_there(&repository(), "pack/specs/Laws"));
    assert!(!is_there(&repository(), "pack/src/numbers") && !is_there(&repository(), "pack/proofs/Laws"));
}

/// The first page says how many lines of definitions have to be believed, in all and by crate.
#[test]
fn what_is_to_be_believed_is_said() {
    let repository = repository();
    let page = fs::read_to_string(repository.join("README.md")).expect("the page");
    let modules = believed::reached(&repository).expect("the sources");
    let specs: Vec<_> = modules.iter().filter(|module| !module.path.to_string_lossy().contains("/Laws/")).collect();
    let all: usize = specs.iter().map(|module| module.lines).sum();
    let said = format!("{all} lines in {} files", specs.len());
    assert!(page.contains(&said), "README.md does not say: {said}");
    for of in ["pack", "chart", "transition", "planner", "pirwodd"] {
        let own = specs.iter().filter(|module| module.path.to_string_lossy().contains(&format!("/{of}/specs/")));
        let row = format!("| `{of}` | {} |", own.map(|module| module.lines).sum::<usize>());
        assert!(page.contains(&row), "README.md does not say: {row}");
    }
}
