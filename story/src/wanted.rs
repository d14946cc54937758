//! What is expected at each place of a text, with words that would do.

/// What is expected, and a help that says what to write.
#[derive(Clone, Copy)]
pub struct Wanted {
    pub what: &'static str,
    pub help: &'static str,
}

const fn wanted(what: &'static str, help: &'static str) -> Wanted {
    Wanted { what, help }
}

pub const HEADING: Wanted = wanted(
    "a heading",
    "begin a section: 'characters:', 'facts:', 'the truth:', 'what … believes:', 'view …:', 'action …:', \
     'trigger …:' or '… wants:'",
);
pub const COLON: Wanted = wanted("a colon", "end the heading with a colon; no comma is part of it");
pub const TITLE: Wanted =
    wanted("a name", "write a name behind the heading's first word, as in 'action Ada goes home:'");
pub const END: Wanted = wanted("the end of the line", "write on a new line what isn't part of this one");

pub const CHARACTER_NAME: Wanted = wanted("a character's name", "write names, as in 'characters: Ada, Ben'");
pub const NEXT_NAME: Wanted = wanted("a comma or the end of the line", "write a comma between one name and the next");
pub const FACT: Wanted = wanted("a fact", "write a fact, a colon and its values, as in 'the lamp: out, lit'");
pub const FACT_COLON: Wanted = wanted("a colon", FACT.help);
pub const VALUE_NAME: Wanted = wanted("a value's name", FACT.help);

pub const VIEW_NAME: Wanted = wanted("the view's name", "write a name, as in 'view the old story:'");
pub const VIEW: Wanted = wanted("a view", "write 'this', 'the truth', 'what … believes' or a view's name");
pub const BELIEVER: Wanted = wanted("a character", "write whose belief it is, as in 'what Ada believes'");
pub const BELIEVES: Wanted = wanted("'believes'", "write 'what … believes', with a character's name");
pub const OWN_SECTION: Wanted =
    wanted("the end of the view's name", "write what is believed in a section of its own, 'what … believes:'");
pub const NEXT_CLAIM: Wanted =
    wanted("'and', a comma or the end of the line", "write 'and' or a comma before the next");

pub const SUBJECT: Wanted = wanted("a fact or a character", "write '… is …', or '… believes …' before it");
pub const IS: Wanted = wanted("'is' or 'believes'", "write a fact and 'is', or a character and 'believes'");
pub const VALUE: Wanted = wanted("a value", "write one of the fact's values behind 'is'");

pub const ACTION: Wanted =
    wanted("'when', 'then', 'by' or 'seen by'", "begin each line of an action with one of these words");
pub const TRIGGER: Wanted = wanted("'when' or 'then'", "begin each line of a trigger with one of these words");
pub const CHARACTER: Wanted = wanted("a character", "write who, or 'nobody'");

pub const WANTING: Wanted =
    wanted("the author or a character", "write 'author wants:', or a character's name before it");
pub const WORTH: Wanted =
    wanted("a number", "write how much it is worth, as in '5 if …' or '1 otherwise', or 'nothing'");
pub const IF: Wanted = wanted("'if' or 'otherwise'", "write when it is worth that, as in '5 if …' or '1 otherwise'");
