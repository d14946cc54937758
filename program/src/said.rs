//! What a command says, and how it ends.

/// What is written to standard output and to standard error, and the exit status.
#[derive(Debug)]
pub struct Said {
    pub out: Vec<u8>,
    pub err: String,
    pub status: Status,
}

/// The exit statuses.
#[derive(Clone, Copy, PartialEq, Eq, Debug)]
pub enum Status {
    /// The question is answered, and not by no.
    Answered = 0,
    /// There is no ending, two states differ, an action fails, something is not believed.
    No = 1,
    /// The story is refused, the command is not understood, or a read or write failed.
    Refused = 2,
}

impl Said {
    pub fn answer(text: impl Into<Vec<u8>>) -> Said {
        Said { out: text.into(), err: String::new(), status: Status::Answered }
    }

    /// An answer that is no.
    pub fn no(text: impl Into<Vec<u8>>) -> Said {
        Said { status: Status::No, ..Said::answer(text) }
    }
}

/// Why there is no answer, in words.
#[derive(Debug)]
pub struct Refused(pub String);

impl Refused {
    pub fn new(message: impl AsRef<str>) -> Refused {
        Refused(format!("pirwodd: {}", message.as_ref()))
    }
}

impl From<pirwodd::Refusal> for Refused {
    fn from(refusal: pirwodd::Refusal) -> Refused {
        Refused::new(refusal.to_string())
    }
}
