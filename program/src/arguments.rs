//! The program's arguments.

use pirwodd::{Foresight, Limits, Nesting, Story};

use crate::said::Refused;

/// What `--help` prints.
pub const USAGE: &str = include_str!("usage.txt");

pub enum Command<'w> {
    New { file: &'w str },
    Check { file: &'w str },
    Play { file: &'w str, limits: Limits },
    Try { file: &'w str, lists: &'w [&'w str], limits: Limits },
    Ask { file: &'w str, belief: &'w str, after: &'w str },
    Compare { file: &'w str, first: &'w str, second: &'w str },
    Pack { file: &'w str },
    Text { file: &'w str, of: Shown<'w> },
    Dot { file: &'w str, of: Shown<'w> },
    Version,
    Help,
}

/// What is shown: a story, or a state under it.
pub enum Shown<'w> {
    Story,
    After(&'w str),
    Chart(&'w str),
}

/// The words behind a command: options with what stands behind each, and the others.
#[derive(Default)]
pub struct Given<'w> {
    command: &'w str,
    places: Vec<&'w str>,
    options: Vec<(&'w str, &'w str)>,
}

const OPTIONS: [&str; 5] = ["-T", "-K", "-E", "--after", "--chart"];

fn usage(problem: impl AsRef<str>) -> Refused {
    Refused::new(format!("{}\npirwodd --help lists the commands and what they take", problem.as_ref()))
}

impl<'w> Given<'w> {
    /// The arguments by kind. `--help` and `--version` are commands.
    pub fn new(words: &'w [String]) -> Result<Given<'w>, Refused> {
        let mut words = words.iter().map(String::as_str);
        let command = words.next().ok_or_else(|| usage("expected a command"))?;
        let mut given = Given { command, ..Given::default() };
        while let Some(word) = words.next() {
            match word {
                "--" => given.places.extend(words.by_ref()),
                "--help" | "-h" => given.command = "--help",
                _ if OPTIONS.contains(&word) => {
                    let value = words.next().ok_or_else(|| usage(format!("{word}: expected something behind it")))?;
                    given.options.push((word, value));
                }
                _ if word.starts_with('-') && word != "-" => return Err(usage(format!("there is no option {word}"))),
                _ => given.places.push(word),
            }
        }
        Ok(given)
    }

    pub fn command(&'w self) -> Result<Command<'w>, Refused> {
        let name = self.command;
        let known: &[&str] = match name {
            "--help" | "-h" => return Ok(Command::Help),
            "--version" => return Ok(Command::Version),
            "new" | "check" | "pack" => &[],
            "play" => &["-T", "-K", "-E"],
            "try" => &["-K", "-E"],
            "ask" | "compare" => &["--after"],
            "text" | "dot" => &["--after", "--chart"],
            _ => return Err(usage(format!("there is no command '{name}'"))),
        };
        if let Some((option, _)) = self.options.iter().find(|(option, _)| !known.contains(option)) {
            return Err(usage(format!("{name}: {option} is not one of its options")));
        }
        let (file, more) = self.places.split_first().ok_or_else(|| usage(format!("{name}: expected a file")))?;
        self.on(file, more)
    }

    /// The command on a file.
    fn on(&'w self, file: &'w str, more: &'w [&'w str]) -> Result<Command<'w>, Refused> {
        Ok(match (self.command, more) {
            ("new", []) => Command::New { file },
            ("check", []) => Command::Check { file },
            ("play", []) => Command::Play { file, limits: self.limits()? },
            ("try", [_, ..]) => Command::Try { file, lists: more, limits: self.limits()? },
            ("ask", [belief]) => Command::Ask { file, belief, after: self.once("--after")?.unwrap_or_default() },
            ("compare", []) => self.two_lists(file)?,
            ("pack", []) => Command::Pack { file },
            ("text", []) => Command::Text { file, of: self.shown()? },
            ("dot", []) => Command::Dot { file, of: self.shown()? },
            (name, []) => return Err(usage(format!("{name}: expected more than a file"))),
            (name, [.., last]) => return Err(usage(format!("{name}: '{last}' is more than it takes"))),
        })
    }

    /// The value of an option that stands at most once.
    fn once(&self, name: &str) -> Result<Option<&'w str>, Refused> {
        let mut values = self.options.iter().filter(|(option, _)| *option == name).map(|(_, value)| *value);
        match (values.next(), values.next()) {
            (value, None) => Ok(value),
            _ => Err(usage(format!("{name}: expected it once"))),
        }
    }

    /// The limits; whether they are within their bounds is the planner's to say.
    fn limits(&self) -> Result<Limits, Refused> {
        let number = |name, other| match self.once(name)? {
            None => Ok(other),
            Some(word) => word.parse().map_err(|_| usage(format!("{name}: expected a small number, found '{word}'"))),
        };
        let Limits { story, foresight, nesting } = Limits::default();
        Ok(Limits {
            story: Story(number("-T", story.0)?),
            foresight: Foresight(number("-K", foresight.0)?),
            nesting: Nesting(number("-E", nesting.0)?),
        })
    }

    fn two_lists(&self, file: &'w str) -> Result<Command<'w>, Refused> {
        match self.options[..] {
            [(_, first), (_, second)] => Ok(Command::Compare { file, first, second }),
            _ => Err(usage("compare: expected --after LIST twice")),
        }
    }

    fn shown(&self) -> Result<Shown<'w>, Refused> {
        match self.options[..] {
            [] => Ok(Shown::Story),
            [("--after", list)] => Ok(Shown::After(list)),
            [(_, bytes)] => Ok(Shown::Chart(bytes)),
            _ => Err(usage("expected --after LIST or --chart HEX, and one of them")),
        }
    }
}
