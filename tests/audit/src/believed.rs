//! The definitions that public contracts reach: the modules of `specs/` that the sources of public calls name, and those
//! that these use in turn. `Laws/` and `Inner/` are proved or serve proofs; where a definition uses one, it counts too.

use crate::calls::CALLS;
use std::collections::BTreeSet;
use std::fs;
use std::io::{Error, Result};
use std::path::{Path, PathBuf};

/// A module of definitions, with its lines that are neither blank nor comments.
pub struct Module {
    pub path: PathBuf,
    pub lines: usize,
}

/// The modules whose names a public contract may use: those with promises, and what these reach.
pub fn reached(repository: &Path) -> Result<Vec<Module>> {
    let mut open = vec![module(repository, "pirwodd", "Exports")];
    for (of, file, _) in CALLS {
        open.push(promises(repository, of, file)?);
    }
    let mut seen = BTreeSet::new();
    while let Some(path) = open.pop() {
        if !seen.insert(path.clone()) {
            continue;
        }
        for line in fs::read_to_string(&path)?.lines() {
            open.extend(used(line).map(|(of, name)| module(repository, of, name)).filter(|p| p.is_file()));
        }
    }
    seen.into_iter().map(|path| Ok(Module { lines: lines(&fs::read_to_string(&path)?), path })).collect()
}

/// The module of promises that the source of a public call names: its crate's own, or that of its layer.
fn promises(repository: &Path, of: &str, file: &str) -> Result<PathBuf> {
    let source = repository.join("crates").join(of).join("src").join(file).with_extension("rt");
    let text = fs::read_to_string(&source)?;
    let named =
        text.lines().filter_map(|line| used(line.strip_prefix("ghost ")?)).find(|(_, name)| *name == "Promises");
    let missing = || Error::other(format!("{} names no promise", source.display()));
    named.map(|(of, name)| module(repository, of, name)).ok_or_else(missing)
}

/// The crate and the module that a `use` line of antt names, if it is one of definitions.
pub fn used(line: &str) -> Option<(&str, &str)> {
    let name = line.strip_prefix("use Rattle.")?;
    let name = name.split([' ', '{']).next()?.trim_end_matches('.');
    let (of, module) = name.split_once(".specs.")?;
    (!module.starts_with("declared.")).then_some((of, module))
}

fn module(repository: &Path, of: &str, name: &str) -> PathBuf {
    repository.join("crates").join(of).join("specs").join(name.replace('.', "/")).with_extension("antt")
}

/// Lines that are neither blank, nor a comment, nor a `use`.
pub fn lines(text: &str) -> usize {
    let counts = |line: &&str| !(line.is_empty() || line.starts_with("--") || line.starts_with("use "));
    text.lines().map(str::trim).filter(counts).count()
}
