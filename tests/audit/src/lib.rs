//! What the sources of the proved library must not have (a `requires` on a public call, the excluded middle, choice or a
//! hole, a citation of what another layer keeps to itself, ever more long lines), and which definitions a reader must
//! believe: those that public contracts reach. Besides, how many tests there are.

pub mod believed;
pub mod calls;
pub mod counts;
pub mod edits;
pub mod layers;
pub mod lengths;
pub mod pages;
pub mod words;

use std::fs;
use std::io::Result;
use std::path::{Path, PathBuf};

/// The repository that this package stands in.
pub fn repository() -> PathBuf {
    Path::new(env!("CARGO_MANIFEST_DIR")).join("../..")
}

/// The files below a folder whose names end so, in order.
pub fn files(folder: &Path, end: &str) -> Result<Vec<PathBuf>> {
    let mut found = Vec::new();
    if !folder.is_dir() {
        return Ok(found);
    }
    for entry in fs::read_dir(folder)? {
        let path = entry?.path();
        if path.is_dir() {
            found.extend(files(&path, end)?);
        } else if path.to_string_lossy().ends_with(end) {
            found.push(path);
        }
    }
    found.sort();
    Ok(found)
}

/// The files that a cell of a table names: a whole path, and behind it names in the same folder.
pub fn paths(cell: &str) -> Vec<String> {
    let mut found: Vec<String> = Vec::new();
    for word in cell.split('`').skip(1).step_by(2) {
        let folder = found.last().and_then(|path| path.rsplit_once('/')).map(|(folder, _)| folder.to_string());
        found.push(match folder {
            Some(folder) if !word.contains('/') => format!("{folder}/{word}"),
            _ => word.to_string(),
        });
    }
    found
}
