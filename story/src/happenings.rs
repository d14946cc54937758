//! Actions and triggers.

use crate::cursor::Cursor;
use crate::faults::again;
use crate::found::Found;
use crate::pack::{Action, Effect, Trigger, MOST_EFFECTS};
use crate::problem::{Problem, Read, Span};
use crate::scope::{room, Placed, Scope};
use crate::sections::{Kind, Section};
use crate::sight::{characters, Sight};
use crate::wanted::{ACTION, END, TRIGGER};
use crate::write::{Owner, Part};

/// What the lines of an action or a trigger say. Of each kind of line, where the first of them stands.
struct Happening {
    kind: Kind,
    when: Option<Span>,
    condition: Option<Placed>,
    then: Option<Span>,
    /// `then nothing`, after which no effect may follow.
    nothing: bool,
    effects: Vec<(Effect, Span)>,
    by: Option<Span>,
    consenters: Vec<usize>,
    sight: Sight,
    /// A line couldn't be read, so that what seems to be blank may be said there.
    unread: bool,
}

/// An action, unless something is wrong with it; `i` is its number.
pub fn action(scope: &Scope, section: &Section, i: usize, found: &mut Found) -> Option<Action> {
    let said = happening(scope, section, found);
    if !said.unread {
        found.problems.extend(said.sight.blank(scope, section));
    }
    said.sight.check(scope, found);
    let observations = said.sight.observations()?;
    for (character, placed) in observations.iter().enumerate() {
        found.source.condition(Owner::Seen(i, character), placed);
    }
    found.source.at(Part::Consenters(i), said.by?);
    let observations = observations.into_iter().map(|placed| placed.condition).collect();
    let mut consenters = said.consenters.clone();
    consenters.sort_unstable();
    let (condition, effects) = said.done(Owner::Action(i), found)?;
    Some(Action { condition: condition.condition, effects, consenters, observations })
}

/// A trigger, unless something is wrong with it; `i` is its number.
pub fn trigger(scope: &Scope, section: &Section, i: usize, found: &mut Found) -> Option<Trigger> {
    let (condition, effects) = happening(scope, section, found).done(Owner::Trigger(i), found)?;
    Some(Trigger { condition: condition.condition, effects })
}

fn happening(scope: &Scope, section: &Section, found: &mut Found) -> Happening {
    let mut said = Happening {
        kind: section.kind,
        when: None,
        condition: None,
        then: None,
        nothing: false,
        effects: Vec::new(),
        by: None,
        consenters: Vec::new(),
        sight: Sight::new(scope),
        unread: section.cut,
    };
    for line in &section.body {
        let cursor = &mut Cursor::new(line);
        let read = said.line(scope, cursor).and_then(|()| cursor.finish(END));
        found.kept(line, read);
    }
    found.problems.extend(said.blank(section));
    said
}

impl Happening {
    fn line(&mut self, scope: &Scope, cursor: &mut Cursor) -> Read<()> {
        let begin = cursor.clone();
        let at = cursor.here();
        let acts = self.kind == Kind::Action;
        if cursor.take("when") {
            once(&mut self.when, at, "'when'")?;
            self.condition = Some(scope.condition(cursor)?);
        } else if cursor.take("then") {
            self.effects(scope, cursor, at)?;
        } else if acts && cursor.take("by") {
            once(&mut self.by, at, "'by'")?;
            if !cursor.take("nobody") {
                self.consenters = characters(scope, cursor)?.into_iter().map(|(character, _)| character).collect();
            }
            self.by = Some(cursor.since(&begin));
        } else if acts && cursor.take("seen by") {
            self.sight.line(scope, cursor)?;
        } else {
            self.unread = true;
            return cursor.expected(if acts { ACTION } else { TRIGGER });
        }
        Ok(())
    }

    /// Effects with `and` or commas between them, or `nothing`.
    fn effects(&mut self, scope: &Scope, cursor: &mut Cursor, at: Span) -> Read<()> {
        let before = self.then.get_or_insert(at);
        let nothing = cursor.take("nothing");
        if self.nothing || nothing && *before != at {
            let help = format!("write one of the two; the other is in line {}", before.at.line);
            return Err(at.problem("there are 'then nothing' and effects besides", help).into());
        }
        self.nothing = nothing;
        if nothing {
            return Ok(());
        }
        loop {
            room(self.effects.len(), "effects", MOST_EFFECTS, cursor)?;
            let begin = cursor.clone();
            let effect = scope.effect(cursor)?;
            self.effects.push((effect, cursor.since(&begin)));
            if !cursor.take_next(&["and"]) {
                return Ok(());
            }
        }
    }

    /// The kinds of lines that there are none of.
    fn blank(&self, section: &Section) -> Vec<Problem> {
        let lines = [
            (self.when, "when it happens", "write 'when always', or 'when' and a condition"),
            (self.then, "what it changes", "write 'then nothing', or 'then' and what is so then"),
            (self.by, "who has to have a reason for it", "write 'by nobody', or 'by' and who does it"),
        ];
        let lines = &lines[..if self.kind == Kind::Action { 3 } else { 2 }];
        let blank = lines.iter().filter(|(said, ..)| said.is_none() && !self.unread);
        blank.map(|(_, what, help)| unsaid(section, what, help)).collect()
    }

    /// Its condition and effects, with their places.
    fn done(self, of: Owner, found: &mut Found) -> Option<(Placed, Vec<Effect>)> {
        let condition = self.condition?;
        found.source.condition(of, &condition);
        found.source.at(Part::Effects(of), self.then?);
        self.effects.iter().enumerate().for_each(|(i, &(_, at))| found.source.at(Part::Effect(of, i), at));
        Some((condition, self.effects.into_iter().map(|(effect, _)| effect).collect()))
    }
}

/// What an action or a trigger leaves blank.
pub fn unsaid(section: &Section, what: &str, help: &str) -> Problem {
    section.span.problem(format!("'{}' doesn't say {what}", section.words()), help)
}

/// Notes where something is said, unless it was said before.
fn once(place: &mut Option<Span>, at: Span, what: &str) -> Read<()> {
    if let Some(before) = place {
        return Err(again(what, at, *before).into());
    }
    *place = Some(at);
    Ok(())
}
