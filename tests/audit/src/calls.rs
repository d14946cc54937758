//! The public calls, and what their contracts ask.

use crate::files;
use std::collections::BTreeSet;
use std::fs;
use std::io::{Error, Result};
use std::path::Path;

/// The six calls in Rattle: crate, module and function.
pub const CALLS: [(&str, &str, &str); 6] = [
    ("chart", "start", "start"),
    ("chart", "query", "query"),
    ("chart", "compare", "compare"),
    ("transition", "play", "step"),
    ("planner", "verdict", "verdict"),
    ("planner", "search", "search"),
];

/// A public function's name and its text from the name to its body.
pub struct Head {
    pub name: String,
    pub text: String,
}

/// The libraries of which C calls each public function, by an export of the same name in the crate with `_c` behind.
pub const EXPORTED: [&str; 2] = ["pirwodd", "probe"];

/// The heads of the six calls, and of all that C calls, in the library and exported.
pub fn heads(repository: &Path) -> Result<Vec<Head>> {
    let mut heads = Vec::new();
    for (of, module, name) in CALLS {
        let file = repository.join(format!("crates/{of}/src/{module}.rt"));
        let text = fs::read_to_string(&file)?;
        let begin = text.find(&format!("pub fn {name}(")).ok_or_else(|| Error::other(format!("no {name}")))?;
        heads.push(Head { name: format!("{of}::{module}::{name}"), text: head(&text[begin..]) });
    }
    for of in EXPORTED {
        heads.extend(public(repository, of, FUNCTION)?);
        heads.extend(public(repository, &format!("{of}_c"), EXPORT)?);
    }
    Ok(heads)
}

/// How a public function begins, and how one that C calls.
const FUNCTION: &str = "pub fn ";
const EXPORT: &str = "pub extern \"C\" fn ";

/// The heads of a crate's functions that begin so.
fn public(repository: &Path, of: &str, begins: &str) -> Result<Vec<Head>> {
    let mut heads = Vec::new();
    for file in files(&repository.join("crates").join(of).join("src"), ".rt")? {
        let text = fs::read_to_string(&file)?;
        for (begin, _) in text.match_indices(begins) {
            let text = head(&text[begin..]);
            let name = text.trim_start_matches(begins).split('(').next().unwrap_or("").to_string();
            heads.push(Head { name: format!("{of}::{name}"), text });
        }
    }
    Ok(heads)
}

/// What the library has and C does not call so, and the other way round: a function of another name, with other
/// parameters or with another contract.
pub fn unlike(repository: &Path) -> Result<Vec<String>> {
    let mut found = Vec::new();
    for of in EXPORTED {
        let said = |of: &str, begins| {
            let heads = public(repository, of, begins)?.into_iter();
            Ok::<_, Error>(heads.map(|head| said(head.text.trim_start_matches(begins))).collect::<BTreeSet<_>>())
        };
        found.extend(said(of, FUNCTION)?.symmetric_difference(&said(&format!("{of}_c"), EXPORT)?).cloned());
    }
    Ok(found)
}

/// A head's text on one line, however it is laid out.
pub fn said(text: &str) -> String {
    let words: Vec<&str> = text.split_whitespace().collect();
    words.join(" ").replace("( ", "(").replace(", )", ")")
}

/// A function's text up to the line that opens its body.
fn head(text: &str) -> String {
    text.lines().take_while(|line| *line != "{").collect::<Vec<_>>().join("\n")
}

impl Head {
    pub fn requires(&self) -> bool {
        self.text.lines().any(|line| line.trim_start().starts_with("requires"))
    }

    pub fn ensures(&self) -> bool {
        self.text.lines().any(|line| line.trim_start().starts_with("ensures"))
    }
}
