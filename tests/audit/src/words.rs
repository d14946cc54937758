//! Words that no definition and no proof may use.

use crate::files;
use std::fs;
use std::io::Result;
use std::path::Path;

/// The excluded middle, choice, and what is left open.
const FORBIDDEN: [&str; 3] = ["lem", "ac", "?"];

/// The module of the first two, which may be named without a `use` line.
const AXIOMS: &str = "Prim.Axiom";

/// Each use of a forbidden word in the specs and proofs of the crates, with its file and line.
pub fn forbidden(repository: &Path) -> Result<Vec<String>> {
    let mut found = Vec::new();
    for file in files(&repository.join("crates"), ".antt")? {
        for (i, line) in fs::read_to_string(&file)?.lines().enumerate() {
            for word in uses(line) {
                found.push(format!("{}:{}: {word}", file.display(), i + 1));
            }
        }
    }
    Ok(found)
}

/// The forbidden words of a line of antt, outside its comment.
pub fn uses(line: &str) -> Vec<&'static str> {
    let code = if line.trim_start().starts_with("--") { "" } else { line.split(" -- ").next().unwrap_or("") };
    let words = code.split(|c: char| c.is_whitespace() || "(){},;=".contains(c));
    let forbidden = |word: &str| match word.starts_with(AXIOMS) {
        true => Some(AXIOMS),
        false => FORBIDDEN.iter().find(|forbidden| **forbidden == word).copied(),
    };
    words.filter_map(forbidden).collect()
}
