//! Planted mistakes: one small change each to the sources of the reference, kept as files in `edits`.
//!
//! A file's first line says what is wrong, its second names the source file (`in happening.rs`), and then come the old
//! lines, each after `- `, and the new ones, each after `+ `.

use std::fs;
use std::path::{Path, PathBuf};

pub struct Mistake {
    /// The file's name without its ending.
    pub name: String,
    pub wrong: String,
    pub source: String,
    pub old: String,
    pub new: String,
}

/// The directory of this workspace.
pub fn workspace() -> PathBuf {
    Path::new(env!("CARGO_MANIFEST_DIR")).parent().unwrap().to_path_buf()
}

/// All mistakes, in the order of their names.
pub fn all() -> Vec<Mistake> {
    let entries = fs::read_dir(workspace().join("mistakes/edits")).unwrap();
    let mut paths: Vec<PathBuf> = entries.map(|entry| entry.unwrap().path()).collect();
    paths.sort();
    paths.iter().map(|path| read(path)).collect()
}

fn read(path: &Path) -> Mistake {
    let text = fs::read_to_string(path).unwrap();
    let mut lines = text.lines();
    let wrong = lines.next().unwrap_or_default().to_string();
    let place = lines.next().and_then(|line| line.strip_prefix("in ")).unwrap_or_default();
    let after = |sign: &str| {
        let block = text.lines().skip(2).filter_map(|line| line.strip_prefix(sign));
        block.collect::<Vec<_>>().join("\n")
    };
    let name = path.file_stem().unwrap().to_string_lossy().to_string();
    Mistake { name, wrong, source: place.to_string(), old: after("- "), new: after("+ ") }
}

impl Mistake {
    /// The source with the mistake in it, or what is wrong with the edit.
    pub fn planted(&self, source: &str) -> Result<String, String> {
        let found = source.matches(&self.old).count();
        if self.old.is_empty() || found != 1 {
            return Err(format!("{}: the old lines are found {found} times in {}", self.name, self.source));
        }
        Ok(source.replace(&self.old, &self.new))
    }
}
