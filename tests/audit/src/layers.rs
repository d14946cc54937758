//! What a layer keeps to itself: its proofs, and what its functions promise each other (`specs/Inner`). A file of another
//! layer cites only the definitions, contracts and laws below it, and what the toolchain makes of a function by itself.

use crate::files;
use std::fs;
use std::io::Result;
use std::path::Path;

/// The modules that the toolchain makes beside a function's proof.
const GENERATED: [&str; 7] = ["Reads", "Kinds", "Statement", "Tie", "Lts", "Given", "Goals"];

/// The crates that `crates.txt` lists.
pub fn crates(repository: &Path) -> Result<Vec<String>> {
    let text = fs::read_to_string(repository.join("crates.txt"))?;
    let names = text.lines().filter(|line| !line.starts_with('#')).filter_map(|line| line.split_once(':'));
    Ok(names.filter_map(|(name, _)| name.split_whitespace().next()).map(str::to_string).collect())
}

/// Each citation of what another layer keeps to itself, with its file and line.
pub fn trespasses(repository: &Path) -> Result<Vec<String>> {
    let crates = crates(repository)?;
    let mut found = Vec::new();
    for of in &crates {
        for (part, end) in [("src", ".rt"), ("specs", ".antt"), ("proofs", ".antt"), ("must-fail", ".edit")] {
            for file in files(&repository.join("crates").join(of).join(part), end)? {
                for (i, line) in fs::read_to_string(&file)?.lines().enumerate() {
                    let cited = foreign(&crates, of, line).into_iter();
                    found.extend(cited.map(|module| format!("{}:{}: {module}", file.display(), i + 1)));
                }
            }
        }
    }
    Ok(found)
}

/// The modules that a line in crate `of` names, and that another of the crates keeps to itself.
pub fn foreign<'a>(crates: &[String], of: &str, line: &'a str) -> Vec<&'a str> {
    let modules = line.match_indices("Rattle.").map(|(begin, _)| module(&line[begin..]));
    modules.filter(|module| owner(module).is_some_and(|by| by != of && crates.iter().any(|name| name == by))).collect()
}

/// The module's path at the start of a text.
fn module(text: &str) -> &str {
    text.split(|c: char| c.is_whitespace() || "(){}[],;`".contains(c)).next().unwrap_or("").trim_end_matches('.')
}

/// The crate that keeps the module to itself, if one does.
fn owner(module: &str) -> Option<&str> {
    let (of, path) = module.strip_prefix("Rattle.")?.split_once('.')?;
    let mut parts = path.split('.');
    let inside = match (parts.next(), parts.next()) {
        (Some("proofs"), _) => !path.split('.').any(|part| GENERATED.contains(&part)),
        (Some("specs"), Some("Inner")) => true,
        _ => false,
    };
    inside.then_some(of)
}
