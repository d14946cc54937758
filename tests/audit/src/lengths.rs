//! Lines of code and of definitions that are longer than a reader likes.

use crate::files;
use std::fs;
use std::io::Result;
use std::path::Path;

/// A line has at most so many characters.
pub const WIDTH: usize = 120;

/// At most so many longer lines are left. Where there are fewer, this is to be lowered to their number.
pub const BOUND: usize = 0;

/// The longer lines of `crates/*/src` and `crates/*/specs`, each with its file.
pub fn long(repository: &Path) -> Result<Vec<String>> {
    let mut found = Vec::new();
    for of in fs::read_dir(repository.join("crates"))? {
        let of = of?.path();
        let mut sources = files(&of.join("src"), ".rt")?;
        sources.extend(files(&of.join("specs"), ".antt")?);
        for file in sources {
            let text = fs::read_to_string(&file)?;
            let places = text.lines().enumerate().filter(|(_, line)| is_long(line));
            found.extend(places.map(|(i, _)| format!("{}:{}", file.display(), i + 1)));
        }
    }
    Ok(found)
}

/// Whether a line has more characters than it should; a character may be several bytes.
pub fn is_long(line: &str) -> bool {
    line.chars().count() > WIDTH
}

/// What is to be done about so many longer lines: nothing, a bound to be lowered, or a fault.
pub fn verdict(lines: usize, bound: usize) -> std::result::Result<String, String> {
    let counted = format!("{lines} lines of src and specs have more than {WIDTH} characters");
    match lines.cmp(&bound) {
        std::cmp::Ordering::Equal => Ok(counted),
        std::cmp::Ordering::Less => Ok(format!("{counted}: lower BOUND in tests/audit/src/lengths.rs from {bound}")),
        std::cmp::Ordering::Greater => Err(format!("{counted}, and at most {bound} may")),
    }
}
