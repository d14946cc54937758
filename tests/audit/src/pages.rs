//! The files that pages name, as `pack/src/number` or `crates/pack/src/number.rt`, and what they count.

use std::path::Path;

/// What may stand behind a crate's name where a page names a file or a folder of it.
const PARTS: [&str; 4] = ["src", "specs", "proofs", "must-fail"];

/// The paths below `crates/` that a page names between backquotes, each with its crate.
pub fn named(text: &str, crates: &[String]) -> Vec<String> {
    let words = text.lines().flat_map(|line| line.split('`').skip(1).step_by(2));
    let below = words.map(|word| word.strip_prefix("crates/").unwrap_or(word));
    let of_a_crate = |word: &&str| {
        let mut parts = word.split('/');
        let of = parts.next().is_some_and(|name| crates.iter().any(|of| of == name));
        of && parts.next().is_some_and(|part| PARTS.contains(&part)) && !word.contains([' ', '*', '{'])
    };
    below.filter(of_a_crate).map(str::to_string).collect()
}

/// Whether there is such a file or folder; its ending may be left out.
pub fn is_there(repository: &Path, path: &str) -> bool {
    let path = repository.join("crates").join(path);
    path.exists() || ["rt", "antt"].iter().any(|end| path.with_extension(end).is_file())
}
