//! Nothing that a writer runs depends on the independent implementation, which the library is compared with.

use audit::repository;
use std::fs;
use std::path::{Path, PathBuf};

/// The folders of the crates that a crate depends on, as its `[dependencies]` name them.
fn dependencies(package: &str, folder: &Path) -> Vec<PathBuf> {
    let (_, section) = package.split_once("[dependencies]\n").unwrap_or_default();
    let own = section.lines().take_while(|line| !line.starts_with('['));
    own.filter_map(|line| line.split("path = \"").nth(1)?.split('"').next()).map(|path| folder.join(path)).collect()
}

/// All folders that are reached from some crates.
fn reached(mut open: Vec<PathBuf>) -> Vec<PathBuf> {
    let mut found = Vec::new();
    while let Some(folder) = open.pop() {
        let package = fs::read_to_string(folder.join("Cargo.toml")).expect("a package");
        open.extend(dependencies(&package, &folder));
        found.push(folder.canonicalize().expect("a folder"));
    }
    found
}

#[test]
fn stories_stand_alone() {
    let repository = repository();
    let tests = repository.join("tests").canonicalize().expect("the tests");
    let folders = ["story", "program"].map(|name| repository.join(name));
    let run: Vec<PathBuf> = folders.into_iter().filter(|folder| folder.is_dir()).collect();
    assert!(!run.is_empty());
    for folder in reached(run) {
        assert!(!folder.starts_with(&tests), "{}", folder.display());
    }
}

#[test]
fn dependencies_are_found() {
    let package =
        "[package]\n[dependencies]\na = { path = \"../reference\" }\n[dev-dependencies]\nb = { path = \"b\" }\n";
    assert_eq!(dependencies(package, Path::new("tests/compare")), [Path::new("tests/compare/../reference")]);
    assert!(reached(vec![repository().join("tests/compare")]).iter().any(|folder| folder.ends_with("reference")));
}

/// The names of the crates that a crate depends on, wherever they come from.
fn needs(folder: &str) -> Vec<String> {
    let text = fs::read_to_string(repository().join(folder).join("Cargo.toml")).expect(folder);
    let sections =
        text.split("\n[").filter(|section| section.split(']').next().unwrap_or("").ends_with("dependencies"));
    let lines = sections.flat_map(|section| section.lines().skip(1)).filter(|line| line.contains('='));
    lines.map(|line| line.split([' ', '.', '=']).next().unwrap_or("").to_string()).collect()
}

/// The program needs the calls and the reader of stories, and these need the standard library alone.
#[test]
fn no_crate_from_elsewhere() {
    assert_eq!(needs("program"), ["pirwodd", "story"]);
    assert!(needs("story").is_empty() && needs("bindings/rust").is_empty());
    assert_eq!(needs("tests/compare"), ["reference"], "dependencies are found where there are some");
}
