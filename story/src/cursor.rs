//! A walk along one line, word by word.

use crate::problem::{Place, Read, Span};
use crate::wanted::Wanted;
use crate::words::{span, Line, Sign, Token};

/// Words that end a name wherever names are used.
pub const RESERVED: [&str; 6] = ["is", "are", "believes", "and", "or", "if"];

#[derive(Clone)]
pub struct Cursor<'l, 'a> {
    tokens: &'l [Token<'a>],
    end: Place,
}

/// A name as it stands somewhere: its words, one space apart.
#[derive(Clone, Debug)]
pub struct Phrase {
    pub text: String,
    pub span: Span,
}

impl<'l, 'a> Cursor<'l, 'a> {
    pub fn new(line: &'l Line<'a>) -> Self {
        Cursor { tokens: &line.tokens, end: line.end }
    }

    /// What comes next.
    pub fn here(&self) -> Span {
        match self.tokens.first() {
            Some(token) => Span { at: token.at, width: token.width() },
            None => Span { at: self.end, width: 1 },
        }
    }

    /// From a place to what was taken last, as far as it stands on one line.
    pub fn since(&self, begin: &Cursor) -> Span {
        let taken = &begin.tokens[..begin.tokens.len() - self.tokens.len()];
        span(taken).unwrap_or_else(|| begin.here())
    }

    pub fn is_done(&self) -> bool {
        self.tokens.is_empty()
    }

    /// The next word, which isn't taken yet.
    pub fn word(&self) -> Option<&'a str> {
        match self.tokens.first()?.sign {
            Sign::Word(word) => Some(word),
            _ => None,
        }
    }

    fn takes(&mut self, signs: &[Sign]) -> bool {
        let found =
            self.tokens.len() >= signs.len() && self.tokens.iter().zip(signs).all(|(token, s)| token.sign == *s);
        if found {
            self.tokens = &self.tokens[signs.len()..];
        }
        found
    }

    /// Takes the words, which one space parts, if they come next.
    pub fn take(&mut self, words: &str) -> bool {
        self.takes(&words.split(' ').map(Sign::Word).collect::<Vec<_>>())
    }

    /// Takes `is` or, for shoes and stalls, `are`.
    pub fn take_is(&mut self) -> bool {
        self.take("is") || self.take("are")
    }

    /// Takes the word, with a comma before it or not.
    pub fn take_joint(&mut self, word: &str) -> bool {
        self.take(word) || self.takes(&[Sign::Comma, Sign::Word(word)])
    }

    /// Takes what stands between the things of a list: a comma, a joint word, or both.
    pub fn take_next(&mut self, joints: &[&str]) -> bool {
        joints.iter().any(|word| self.take_joint(word)) || self.takes(&[Sign::Comma])
    }

    pub fn take_colon(&mut self) -> bool {
        self.takes(&[Sign::Colon])
    }

    /// Takes any word.
    pub fn any_word(&mut self, wanted: Wanted) -> Read<Phrase> {
        let span = self.here();
        let Some(word) = self.word() else { return self.expected(wanted) };
        self.tokens = &self.tokens[1..];
        Ok(Phrase { text: word.to_string(), span })
    }

    /// Takes a name: words up to a reserved one, a comma, a colon or the end.
    pub fn phrase(&mut self, wanted: Wanted) -> Read<Phrase> {
        self.words(wanted, |word| !RESERVED.contains(&word))
    }

    /// Takes a title: all words up to a comma, a colon or the end.
    pub fn title(&mut self, wanted: Wanted) -> Read<Phrase> {
        self.words(wanted, |_| true)
    }

    /// Takes the title of an action or a trigger: all words to the end, and commas between them.
    pub fn sentence(&mut self, wanted: Wanted) -> Read<Phrase> {
        let Some(span) = span(self.tokens).filter(|_| self.word().is_some()) else { return self.expected(wanted) };
        let words: Vec<&str> = self.tokens.iter().map(|token| token.sign.text()).collect();
        self.tokens = &[];
        Ok(Phrase { text: words.join(" ").replace(" ,", ","), span })
    }

    fn words(&mut self, wanted: Wanted, part: fn(&str) -> bool) -> Read<Phrase> {
        let taken = self.tokens.iter().take_while(|token| matches!(token.sign, Sign::Word(word) if part(word))).count();
        let (words, rest) = self.tokens.split_at(taken);
        let Some(span) = span(words) else { return self.expected(wanted) };
        self.tokens = rest;
        let words: Vec<&str> = words.iter().map(|token| token.sign.text()).collect();
        Ok(Phrase { text: words.join(" "), span })
    }

    /// The refusal of what comes next.
    pub fn expected<T>(&self, wanted: Wanted) -> Read<T> {
        let found = self.tokens.first().map(|token| format!("'{}'", token.sign.text()));
        let found = found.unwrap_or("the end of the line".to_string());
        Err(self.here().problem(format!("expected {}, found {found}", wanted.what), wanted.help).into())
    }

    /// Nothing may follow.
    pub fn finish(&self, wanted: Wanted) -> Read<()> {
        if self.is_done() {
            return Ok(());
        }
        self.expected(wanted)
    }
}
