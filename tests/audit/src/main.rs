//! Prints what a reader must believe, and fails where the sources have what they must not.

use audit::{believed, calls, counts, layers, lengths, repository, words};
use std::io::Result;
use std::path::Path;
use std::process::ExitCode;

fn main() -> Result<ExitCode> {
    let repository = repository();
    print_believed(&repository)?;
    let faults = faults(&repository)?;
    faults.iter().for_each(|fault| println!("fault: {fault}"));
    Ok(if faults.is_empty() { ExitCode::SUCCESS } else { ExitCode::FAILURE })
}

fn faults(repository: &Path) -> Result<Vec<String>> {
    let mut faults = words::forbidden(repository)?;
    for head in calls::heads(repository)? {
        if head.requires() || !head.ensures() {
            faults.push(format!("{}: a public call has a contract, and no `requires`", head.name));
        }
    }
    let unlike = calls::unlike(repository)?.into_iter();
    faults.extend(unlike.map(|head| format!("{head}: what C calls is not what the library has")));
    faults.extend(layers::trespasses(repository)?.into_iter().map(|place| format!("{place} is another layer's own")));
    faults.extend(counts::differences(&counts::listed(repository)?, &counts::counted(repository)?));
    match lengths::verdict(lengths::long(repository)?.len(), lengths::BOUND) {
        Ok(said) => println!("{said}"),
        Err(fault) => faults.push(fault),
    }
    Ok(faults)
}

/// The files of definitions that public contracts reach, each with its lines.
fn print_believed(repository: &Path) -> Result<()> {
    let modules = believed::reached(repository)?;
    let below = |path: &Path| path.strip_prefix(repository).unwrap_or(path).display().to_string();
    for module in &modules {
        println!("{:5}  {}", module.lines, below(&module.path));
    }
    let (laws, specs): (Vec<_>, Vec<_>) = modules.iter().partition(|module| below(&module.path).contains("/Laws/"));
    let sum = |modules: &[&believed::Module]| modules.iter().map(|module| module.lines).sum::<usize>();
    println!("to believe: {} lines of definitions in {} files", sum(&specs), specs.len());
    println!("proved beside them: {} lines of laws in {} files", sum(&laws), laws.len());
    Ok(())
}
