//! What is legal and seldom meant.

use crate::pack::{Action, Condition, Effect, Pack, Rule};
use crate::problem::{Problem, Span};
use crate::rest;
use crate::source::Source;
use crate::write::{Owner, Part};
use crate::Story;

/// All warnings of a story that was read from a text.
pub fn of(story: &Story) -> Vec<Problem> {
    let Some(source) = &story.source else { return Vec::new() };
    let about = About { story, source };
    let mut found = Vec::new();
    for (i, action) in story.pack.actions.iter().enumerate() {
        found.extend(about.unseen(i, action));
        found.extend(about.by_nobody(i, action));
    }
    found.extend(about.no_wish());
    found.extend((0..story.pack.domains.len()).filter_map(|fact| about.unused(fact)));
    found.extend((0..story.pack.triggers.len()).filter_map(|trigger| about.restless(trigger)));
    found
}

struct About<'s> {
    story: &'s Story,
    source: &'s Source,
}

impl About<'_> {
    fn at(&self, part: Part) -> Option<Span> {
        self.source.span(part)
    }

    /// An actor who never sees their own act.
    fn unseen(&self, i: usize, action: &Action) -> Vec<Problem> {
        let names = &self.story.names;
        let unseen = action.consenters.iter().filter(|&&character| action.observations[character].is_never());
        let told = unseen.filter_map(|&character| {
            let (who, what) = (&names.characters[character], &names.actions[i]);
            let message = format!("'{what}' is by '{who}', who doesn't see it");
            Some(self.at(Part::Consenters(i))?.problem(message, format!("write 'seen by {who}', unless this is meant")))
        });
        told.collect()
    }

    /// An act by nobody that changes what someone wants.
    fn by_nobody(&self, i: usize, action: &Action) -> Option<Problem> {
        if !action.consenters.is_empty() {
            return None;
        }
        let (fact, who) = action.effects.iter().find_map(|effect| {
            let who = self.story.pack.utilities.iter().position(|rules| matters(effect, rules))?;
            Some((effect.fluent, who))
        })?;
        let names = &self.story.names;
        let character = |character: usize| format!("'{}'", names.characters[character]);
        let who = who.checked_sub(1).map_or("the author".to_string(), character);
        let (what, fact) = (&names.actions[i], &names.facts[fact].name);
        let message = format!("'{what}' is by nobody and changes '{fact}', on which what {who} wants depends");
        let help = "write who does it behind 'by', unless it may happen at any time and for no reason";
        Some(self.at(Part::Consenters(i))?.problem(message, help))
    }

    /// An author who wants nothing.
    fn no_wish(&self) -> Option<Problem> {
        let at = self.at(Part::Wants(0)).filter(|_| self.story.pack.utilities[0].is_empty())?;
        let message = "the author wants nothing, so there is no ending";
        Some(at.problem(message, "write what the story should come to, as in '5 if …'"))
    }

    /// A fact that nothing looks at.
    fn unused(&self, fact: usize) -> Option<Problem> {
        let looked_at = conditions(&self.story.pack).any(|looks| looks.tests().any(|test| test.fluent == fact));
        let at = self.at(Part::Fact(fact)).filter(|_| !looked_at)?;
        let name = &self.story.names.facts[fact].name;
        Some(at.problem(format!("nothing looks at '{name}'"), "leave it out, or write a condition that looks at it"))
    }

    /// A trigger that may never rest.
    fn restless(&self, i: usize) -> Option<Problem> {
        let pack = &self.story.pack;
        let (why, help) = if rest::holds_on(pack, i) {
            ("what triggers change does not end it", "write something behind 'then' that makes 'when' false")
        } else if rest::goes_deeper(pack, i) {
            let help = "write something into the same belief that makes 'when' false there";
            ("it lets itself happen again in the belief that it writes into, and so on", help)
        } else {
            return None;
        };
        let message = format!("'{}' may never rest: {why}", self.story.names.triggers[i]);
        Some(self.at(Part::Condition(Owner::Trigger(i)))?.problem(message, help))
    }
}

/// Whether rules look at what an effect writes. One in a belief is looked at by tests of a belief alone.
fn matters(effect: &Effect, rules: &[Rule]) -> bool {
    let mut tests = rules.iter().flat_map(|rule| rule.condition.tests());
    tests.any(|test| test.fluent == effect.fluent && (effect.whom.is_none() || !test.chain.is_empty()))
}

/// All conditions of a pack.
fn conditions(pack: &Pack) -> impl Iterator<Item = &Condition> {
    let actions = pack.actions.iter();
    let actions = actions.flat_map(|action| std::iter::once(&action.condition).chain(&action.observations));
    let triggers = pack.triggers.iter().map(|trigger| &trigger.condition);
    actions.chain(triggers).chain(pack.utilities.iter().flatten().map(|rule| &rule.condition))
}
