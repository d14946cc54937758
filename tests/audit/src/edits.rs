//! The must-fail edits: a `file:` line holds for the pairs of `old:` and `new:` after it, and each old text must stand in
//! the file once when its turn comes. So an edit that the sources have left behind is noticed before the prover is asked.

use crate::{files, layers};
use std::collections::BTreeMap;
use std::fs;
use std::io::{Error, Result};
use std::path::{Path, PathBuf};

/// The edits of a crate, as `crate/name`. rt tries those right in `must-fail`, so one in a folder below it is an error.
pub fn names(repository: &Path, of: &str) -> Result<Vec<String>> {
    let folder = repository.join("crates").join(of).join("must-fail");
    let mut found = Vec::new();
    for file in files(&folder, ".edit")? {
        if file.parent() != Some(folder.as_path()) {
            return Err(Error::other(format!("{}: not tried there", file.display())));
        }
        found.push(format!("{of}/{}", file.file_stem().expect("a name").to_string_lossy()));
    }
    Ok(found)
}

/// Each edit that does not fit the sources, and why.
pub fn misfits(repository: &Path) -> Result<Vec<String>> {
    let mut found = Vec::new();
    for of in layers::crates(repository)? {
        let folder = repository.join("crates").join(&of);
        for file in files(&folder.join("must-fail"), ".edit")? {
            if let Err(why) = fits(&folder, &fs::read_to_string(&file)?) {
                found.push(format!("{}: {why}", file.display()));
            }
        }
    }
    Ok(found)
}

/// Makes the edit in memory, on the sources of a crate's folder.
pub fn fits(folder: &Path, edit: &str) -> std::result::Result<(), String> {
    let mut texts: BTreeMap<PathBuf, String> = BTreeMap::new();
    let (mut file, mut old, mut pairs) = (PathBuf::new(), "", 0);
    for line in edit.lines() {
        if let Some(path) = line.strip_prefix("file: ") {
            file = folder.join(path);
        } else if let Some(text) = line.strip_prefix("old: ") {
            old = text;
        } else if let Some(new) = line.strip_prefix("new:") {
            let text = match texts.remove(&file) {
                Some(text) => text,
                None => fs::read_to_string(&file).map_err(|why| format!("{}: {why}", file.display()))?,
            };
            match text.matches(old).count() {
                1 => texts.insert(file.clone(), text.replace(old, new.strip_prefix(' ').unwrap_or(new))),
                n => return Err(format!("'{old}' stands in {} {n} times", file.display())),
            };
            pairs += 1;
        }
    }
    if pairs == 0 {
        Err("it changes nothing".into())
    } else {
        Ok(())
    }
}
