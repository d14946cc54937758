//! The truth and the views: each section is a node. Their headings are read here, what they say in `claims`; `fill`
//! completes it.

use crate::cursor::Cursor;
use crate::declare::{refuse, refuse_word};
use crate::faults::{again, too_many};
use crate::fill;
use crate::found::Found;
use crate::names::{Label, TRUTH};
use crate::pack::{Node, MOST_VIEWS};
use crate::problem::{Problem, Read, Span};
use crate::scope::Scope;
use crate::sections::{Kind, Section, Text};
use crate::wanted::{BELIEVER, BELIEVES, COLON, VIEW, VIEW_NAME};
use crate::write::Part;

/// The nodes, the truth first and the others in the order of their sections, with their labels.
pub struct Views {
    pub nodes: Vec<Node>,
    pub labels: Vec<Label>,
    /// For each fact, whether the truth tells it with `are`.
    pub plural: Vec<bool>,
}

/// A view's section, and what it says.
pub struct Said {
    /// Its heading: where, in words, and as a label unless it can't be read.
    pub at: Span,
    pub heading: String,
    pub label: Option<Label>,
    /// By fact, the value.
    pub values: Vec<Option<Told>>,
    /// By character, the view.
    pub beliefs: Vec<Option<Told>>,
    /// `the rest is as in ..`
    pub rest: Option<Told>,
    /// `everyone else believes ..`
    pub others: Option<Told>,
    pub plural: Vec<bool>,
    /// Something couldn't be read, so that what seems to be blank may be said there.
    pub unread: bool,
}

/// What is said, and where.
#[derive(Clone, Copy)]
pub struct Told {
    /// None where it can't be read.
    pub what: Option<usize>,
    pub at: Span,
    /// Whether it speaks of all (`everything`, `everyone`), so that none may be named besides.
    pub of_all: bool,
}

/// The views as they are said.
pub struct Sections<'s> {
    pub scope: &'s Scope,
    pub said: Vec<Said>,
    /// Whether all headings could be read.
    pub whole: bool,
}

pub fn views(scope: &Scope, text: &Text, found: &mut Found) -> Option<Views> {
    let truth = text.only(Kind::Truth, TRUTH, found);
    truth.into_iter().for_each(|section| found.source.at(Part::Views, section.span));
    let others = text.sections.iter().filter(|section| matches!(section.kind, Kind::Believed | Kind::View));
    let sections: Vec<&Section> = truth.into_iter().chain(others).collect();
    let mut views = Sections { scope, said: Vec::new(), whole: truth.is_some() && !text.lost };
    for section in &sections {
        views.open(section, found);
    }
    for (i, section) in sections.iter().enumerate() {
        section.body.iter().for_each(|line| views.claims(i, line, found));
    }
    views.tie(found);
    let nodes = fill::nodes(&views, found)?;
    let plural = views.said.first()?.plural.clone();
    Some(Views { nodes, labels: views.said.into_iter().map(|said| said.label).collect::<Option<_>>()?, plural })
}

impl Sections<'_> {
    pub fn name(&self, view: usize) -> String {
        let label = self.said[view].label.as_ref();
        label.map_or(String::new(), |label| label.text(&self.scope.characters.names))
    }

    /// Adds a section by its heading.
    fn open(&mut self, section: &Section, found: &mut Found) {
        let mut label = found.kept(&section.heading, self.label(section));
        self.whole &= label.is_some();
        if let Some(before) = self.said.iter().find(|said| label.is_some() && said.label == label) {
            found.problems.push(again(&format!("'{}:'", before.heading), section.span, before.at));
            label = None;
        }
        if self.said.len() == MOST_VIEWS {
            found.problems.push(too_many(section.span, "views, the truth among them", MOST_VIEWS));
        }
        let facts = self.scope.facts.values.len();
        self.said.push(Said {
            at: section.span,
            heading: section.words(),
            label,
            values: vec![None; facts],
            beliefs: vec![None; self.scope.characters.names.len()],
            rest: None,
            others: None,
            plural: vec![false; facts],
            unread: section.cut,
        });
    }

    fn label(&self, section: &Section) -> Read<Label> {
        let cursor = &mut Cursor::new(&section.heading);
        let label = match section.kind {
            Kind::Truth => return Ok(Label::Truth),
            Kind::Believed => self.named(cursor)?,
            _ => {
                cursor.take("view");
                let name = cursor.phrase(VIEW_NAME)?;
                refuse_word(&name, &["what", "this"])?;
                refuse(&name, TRUTH, "the truth hasn't")?;
                Label::Named(name.text)
            }
        };
        cursor.finish(COLON)?;
        Ok(label)
    }

    /// `the truth`, `what Ada believes Ben believes`, or a view's name.
    pub fn named(&self, cursor: &mut Cursor) -> Read<Label> {
        if !cursor.take("what") {
            let name = cursor.phrase(VIEW)?.text;
            return Ok(if name == TRUTH { Label::Truth } else { Label::Named(name) });
        }
        let mut chain = Vec::new();
        loop {
            let name = cursor.phrase(BELIEVER)?;
            if !cursor.take("believes") {
                return cursor.expected(BELIEVES);
            }
            chain.push(self.scope.characters.find(&name)?);
            if cursor.word().is_none_or(|word| word == "and") {
                return Ok(Label::Believed(chain));
            }
        }
    }

    /// A heading `what .. believes` says whose belief its view is.
    fn tie(&mut self, found: &mut Found) {
        for view in 0..self.said.len() {
            let at = self.said[view].at;
            let Some((holder, character)) = self.said[view].label.as_ref().and_then(Label::holder) else { continue };
            let Some(place) = self.said.iter().position(|said| said.label.as_ref() == Some(&holder)) else {
                if self.whole {
                    found.problems.push(untied(at, &holder.text(&self.scope.characters.names)));
                }
                continue;
            };
            match self.said[place].beliefs[character] {
                Some(told) if told.what.is_some_and(|told| told != view) => found.problems.push(again(
                    &format!("what '{}' believes", self.scope.characters.names[character]),
                    at,
                    told.at,
                )),
                Some(_) => {}
                None => {
                    self.said[place].beliefs[character] = Some(Told { what: Some(view), at, of_all: false });
                }
            }
        }
    }
}

/// A heading such as `what A believes B believes:` without one for the view that holds the belief.
fn untied(at: Span, holder: &str) -> Problem {
    at.problem(format!("this is part of '{holder}', which has no section"), format!("write a section '{holder}:'"))
}
