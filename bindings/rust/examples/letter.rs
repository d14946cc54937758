//! The story of `examples/letter.story`, told by the calls: how it begins, what Ada's action leaves, who knows of it, who has
//! a reason for what, and the shortest ending.
//!
//!     cargo run --release --offline -p pirwodd --example letter ../examples/letter.pack
//!
//! `examples/c/letter.txt` is what it prints.

use pirwodd::{refusal, Action, Character, Fluent, Foresight, Limits, Nesting, Planner, Refusal};
use std::process::ExitCode;

/// The story's names, in the order of its numbers.
const ADA: Character = Character(0);
const COUSIN: Character = Character(1);
const LETTER: Fluent = Fluent(0);
const ACTIONS: [&str; 4] = [
    "Ada moves the letter to the drawer",
    "the cousin comes home",
    "the cousin breaks the desk open",
    "the cousin takes the letter from the desk",
];
const PLACES: [&str; 3] = ["in the desk", "in the drawer", "with the cousin"];

/// A name by its number; another pack may have more.
fn name(names: &[&'static str], number: u8) -> &'static str {
    names.get(number as usize).unwrap_or(&"something else")
}

struct Teller<'a> {
    planner: Planner,
    pack: &'a [u8],
}

impl Teller<'_> {
    /// Where the letter is, by a chain of beliefs.
    fn letter(&mut self, chart: &[u8], chain: &[Character]) -> Result<&'static str, Refusal> {
        let place = self.planner.query(self.pack, chart, chain, LETTER)?;
        Ok(name(&PLACES, place))
    }

    fn tell_letter(&mut self, chart: &[u8]) -> Result<(), Refusal> {
        println!("  The letter is {}.", self.letter(chart, &[])?);
        println!("  The cousin believes it {}.", self.letter(chart, &[COUSIN])?);
        println!("  Ada believes that the cousin believes it {}.", self.letter(chart, &[ADA, COUSIN])?);
        Ok(())
    }

    fn tell_reason(&mut self, chart: &[u8], who: &str, character: Character, action: Action) -> Result<(), Refusal> {
        let explained = self.planner.explained(self.pack, chart, character, action, Foresight(3), Nesting(2))?;
        println!("  {who} has {} reason for: {}.", if explained { "a" } else { "no" }, name(&ACTIONS, action.0));
        Ok(())
    }

    fn tell_ending(&mut self) -> Result<(), Refusal> {
        let ending = match self.planner.search(self.pack, Limits::default()) {
            Err(Refusal { number: refusal::NO_ENDING, .. }) => {
                println!("There is no ending of up to 4 actions.");
                return Ok(());
            }
            found => found?,
        };
        println!("The shortest ending:");
        for (i, &action) in ending.actions.iter().enumerate() {
            println!("  {}. {}", i + 1, name(&ACTIONS, action.0));
        }
        println!("  The author goes from {} to {}.", ending.before, ending.after);
        Ok(())
    }

    fn tell(&mut self) -> Result<(), Refusal> {
        let before = self.planner.start(self.pack)?;
        println!("At the start:");
        self.tell_letter(&before)?;
        self.tell_reason(&before, "Ada", ADA, Action(0))?;
        self.tell_reason(&before, "The cousin", COUSIN, Action(1))?;
        self.tell_reason(&before, "The cousin", COUSIN, Action(0))?;

        let after = self.planner.step(self.pack, &before, Action(0))?;
        println!("After this: {}.", name(&ACTIONS, 0));
        self.tell_letter(&after)?;
        self.tell_reason(&after, "The cousin", COUSIN, Action(1))?;

        self.tell_ending()
    }
}

fn main() -> ExitCode {
    let Some(pack) = std::env::args().nth(1).and_then(|file| std::fs::read(file).ok()) else {
        eprintln!("letter FILE: the pack of examples/letter.story");
        return ExitCode::from(2);
    };
    match (Teller { planner: Planner::new(), pack: &pack }).tell() {
        Ok(()) => ExitCode::SUCCESS,
        Err(refused) => {
            println!("{refused}");
            ExitCode::FAILURE
        }
    }
}
