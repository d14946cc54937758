//! What the author and everyone wants.

use crate::cursor::Cursor;
use crate::faults::again;
use crate::found::Found;
use crate::pack::{Rule, MOST_RULES, MOST_WORTH};
use crate::problem::{Problem, Read, Span};
use crate::scope::{room, Placed, Scope};
use crate::sections::{Kind, Section, Text};
use crate::wanted::{COLON, END, IF, WANTING, WORTH};
use crate::write::{Owner, Part};

/// What the author wants, then what each character wants.
pub fn utilities(scope: &Scope, text: &Text, found: &mut Found) -> Vec<Vec<Rule>> {
    let mut all: Vec<Option<(Vec<Rule>, Span)>> = vec![None; 1 + scope.characters.names.len()];
    let mut unread = text.lost || scope.characters.misread;
    for section in text.of(Kind::Wants) {
        let who = found.kept(&section.heading, who(scope, section));
        unread |= who.is_none();
        // What stands under a heading that can't be read is looked through, too.
        let rules = rules(scope, section, who.unwrap_or(0), found);
        let Some(who) = who else { continue };
        if let Some((_, before)) = all[who] {
            found.problems.push(again(&format!("what {} wants", quoted(scope, who)), section.span, before));
        }
        found.source.at(Part::Wants(who), section.span);
        all[who] = Some((rules, section.span));
    }
    for (who, _) in all.iter().enumerate().filter(|(_, rules)| rules.is_none() && !unread) {
        found.problems.push(unsaid(scope, text, who));
    }
    all.into_iter().map(|rules| rules.map_or(Vec::new(), |(rules, _)| rules)).collect()
}

/// Someone of whom no section says what they want.
fn unsaid(scope: &Scope, text: &Text, who: usize) -> Problem {
    let (name, at) = match who.checked_sub(1) {
        Some(character) => (scope.characters.names[character].as_str(), scope.characters.spans[character]),
        None => ("author", text.end),
    };
    let help = format!("write a section '{name} wants:' with lines such as '5 if …', or '{name} wants: nothing'");
    at.problem(format!("the story doesn't say what {} wants", quoted(scope, who)), help)
}

/// Someone who wants something, in a sentence.
fn quoted(scope: &Scope, who: usize) -> String {
    let character = |character: usize| format!("'{}'", scope.characters.names[character]);
    who.checked_sub(1).map_or("the author".to_string(), character)
}

/// Who it is that wants: 0 for the author and character + 1 for a character.
fn who(scope: &Scope, section: &Section) -> Read<usize> {
    let mut before = section.heading.clone();
    before.tokens.pop();
    if before.tokens.is_empty() {
        return Cursor::new(&section.heading).expected(WANTING);
    }
    let mut cursor = Cursor::new(&before);
    let name = cursor.title(WANTING)?;
    cursor.finish(COLON)?;
    if name.text == "author" || name.text == "the author" {
        return Ok(0);
    }
    Ok(scope.characters.find(&name)? + 1)
}

/// `5 if …` or `1 otherwise`, a line each, or `nothing`. `who` is 0 for the author and character + 1 for a character.
fn rules(scope: &Scope, section: &Section, who: usize, found: &mut Found) -> Vec<Rule> {
    let mut rules = Vec::new();
    for line in &section.body {
        let cursor = &mut Cursor::new(line);
        let at = cursor.here();
        if cursor.take("nothing") {
            let alone = section.body.len() == 1;
            let both = || at.problem("there are 'nothing' and wishes besides", "leave 'nothing' out").into();
            let read = cursor.finish(END).and_then(|()| if alone { Ok(()) } else { Err(both()) });
            found.kept(line, read);
            continue;
        }
        let read = room(rules.len(), "lines of what one wants", MOST_RULES, cursor)
            .and_then(|()| rule(scope, cursor))
            .and_then(|rule| cursor.finish(END).map(|()| rule));
        let Some((worth, condition)) = found.kept(line, read) else { continue };
        found.source.condition(Owner::Rule(who, rules.len()), &condition);
        found.source.at(Part::Worth(who, rules.len()), at);
        rules.push(Rule { condition: condition.condition, worth });
    }
    if section.body.is_empty() && !section.cut {
        let message = format!("'{}' doesn't say what", section.words());
        found.problems.push(section.span.problem(message, "write 'nothing', or lines such as '5 if …'"));
    }
    rules
}

fn rule(scope: &Scope, cursor: &mut Cursor) -> Read<(usize, Placed)> {
    let begin = cursor.clone();
    let number = cursor.any_word(WORTH)?;
    if !number.text.bytes().all(|byte| byte.is_ascii_digit()) {
        return begin.expected(WORTH);
    }
    let Some(worth) = number.text.parse().ok().filter(|&worth| worth <= MOST_WORTH) else {
        let message = format!("{} is more than a worth may be", number.text);
        return Err(number.span.problem(message, format!("write a number of at most {MOST_WORTH}")).into());
    };
    let at = cursor.here();
    if cursor.take("otherwise") {
        return Ok((worth, Placed::always(at)));
    }
    if !cursor.take("if") {
        return cursor.expected(IF);
    }
    Ok((worth, scope.condition(cursor)?))
}
