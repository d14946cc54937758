//! What a writer asks of a story, answered in words. All that is said of a story's states comes from the proved calls;
//! a chart is decoded only to be printed, and to know which chains of beliefs are worth asking for.
//!
//! In the order of reading: `said`, `arguments`, `open`, `stage`, `list`, `judge`, `mistakes`, `act`, then a module for
//! each command, with `again` for `check` and `progress` for `play`.

mod act;
pub mod again;
mod arguments;
mod ask;
mod attempt;
pub mod check;
mod compare;
mod judge;
pub mod list;
mod mistakes;
mod new;
pub mod open;
mod play;
mod progress;
mod said;
mod show;
pub mod stage;

pub use said::{Refused, Said, Status};

use arguments::{Command, Given, USAGE};

/// What the program says to its arguments.
pub fn run(words: &[String]) -> Said {
    answered(words).unwrap_or_else(|Refused(message)| Said {
        out: Vec::new(),
        err: message.trim_end().to_string() + "\n",
        status: Status::Refused,
    })
}

fn answered(words: &[String]) -> Result<Said, Refused> {
    match Given::new(words)?.command()? {
        Command::New { file } => new::new(file),
        Command::Check { file } => check::check(file),
        Command::Play { file, limits } => play::play(file, limits),
        Command::Try { file, lists, limits } => attempt::attempt(file, lists, limits),
        Command::Ask { file, belief, after } => ask::ask(file, belief, after),
        Command::Compare { file, first, second } => compare::compare(file, first, second),
        Command::Pack { file } => show::pack(file),
        Command::Text { file, of } => show::text(file, of),
        Command::Dot { file, of } => show::dot(file, of),
        Command::Version => Ok(Said::answer(version())),
        Command::Help => Ok(Said::answer(USAGE)),
    }
}

fn version() -> String {
    let (own, library) = (env!("CARGO_PKG_VERSION"), pirwodd::VERSION);
    format!("pirwodd {own}, over the proved library of the crate pirwodd {library}\npacks of version 1\n")
}
