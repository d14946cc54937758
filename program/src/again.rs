//! The beliefs that a text states, read a second time by the words of its views alone. The reader of stories makes nodes
//! of them; here none are made, so that a mistake of the one is not a mistake of the other.

use std::collections::{HashSet, VecDeque};

use story::names::{Fact, TRUTH};
use story::{Names, Place, Stated};

/// A view: what its heading calls it, and the claims under it.
struct View {
    name: String,
    claims: Vec<Claim>,
}

struct Claim {
    words: String,
    at: Place,
}

/// What the views say of every fact: of each view by the chain that leads to it first, and by one character more.
pub fn stated(text: &str, names: &Names) -> Vec<Stated> {
    let views = Views(views(text));
    let (mut found, mut reached) = (Vec::new(), HashSet::new());
    let mut open: VecDeque<(Vec<usize>, usize)> =
        views.place(TRUTH).map(|truth| (Vec::new(), truth)).into_iter().collect();
    while let Some((chain, view)) = open.pop_front() {
        for (fluent, fact) in names.facts.iter().enumerate() {
            let told = views.value(view, fact);
            found.extend(told.map(|(value, at)| Stated { chain: chain.clone(), fluent, value, at }));
        }
        if !reached.insert(view) {
            continue;
        }
        for (character, name) in names.characters.iter().enumerate() {
            let next = views.believed(view, name);
            open.extend(next.map(|next| ([&chain[..], &[character]].concat(), next)));
        }
    }
    found
}

/// The sections that are views. A line with a colon is a heading.
fn views(text: &str) -> Vec<View> {
    let mut views: Vec<View> = Vec::new();
    let mut is_view = false;
    for (i, line) in text.trim_start_matches('\u{FEFF}').lines().enumerate() {
        let said = line.split('#').next().unwrap_or("");
        let said = match said.split_once(':') {
            None => said,
            Some((heading, rest)) => {
                let name = view_name(heading);
                is_view = name.is_some();
                views.extend(name.map(|name| View { name, claims: Vec::new() }));
                rest
            }
        };
        let column = 1 + line.chars().take_while(|sign| sign.is_whitespace()).count();
        if let Some(view) = views.last_mut().filter(|_| is_view) {
            let at = Place { line: i + 1, column };
            view.claims.extend(claims(said).into_iter().map(|words| Claim { words, at }));
        }
    }
    views
}

fn view_name(heading: &str) -> Option<String> {
    match heading.split_whitespace().collect::<Vec<_>>()[..] {
        ["the", "truth"] => Some(TRUTH.to_string()),
        ["view", ref name @ ..] => Some(name.join(" ")),
        ["what", ref chain @ ..] => Some(format!("what {}", chain.join(" "))),
        _ => None,
    }
}

/// What stands between commas and `and`, its words one space apart.
fn claims(line: &str) -> Vec<String> {
    let line = line.replace(',', " and ");
    let words: Vec<&str> = line.split_whitespace().collect();
    words.split(|word| *word == "and").filter(|claim| !claim.is_empty()).map(|claim| claim.join(" ")).collect()
}

struct Views(Vec<View>);

impl Views {
    fn place(&self, name: &str) -> Option<usize> {
        self.0.iter().position(|view| view.name == name)
    }

    /// The view that a claim with this beginning names.
    fn named(&self, view: usize, beginning: &str) -> Option<usize> {
        let name = self.0[view].claims.iter().find_map(|claim| claim.words.strip_prefix(beginning))?;
        if name == "this" {
            return Some(view);
        }
        self.place(name)
    }

    /// What a character believes in a view: by a claim, by a heading, or as everyone does.
    fn believed(&self, view: usize, who: &str) -> Option<usize> {
        let name = &self.0[view].name;
        let holder = if name == TRUTH { "what" } else { name };
        let own =
            self.named(view, &format!("{who} believes ")).or_else(|| self.place(&format!("{holder} {who} believes")));
        let all = || self.named(view, "everyone else believes ").or_else(|| self.named(view, "everyone believes "));
        own.or_else(all)
    }

    /// A fact's value in a view, by a claim or as in another view, and where it is said.
    fn value(&self, mut view: usize, fact: &Fact) -> Option<(usize, Place)> {
        for _ in 0..self.0.len() {
            if let Some(told) = self.0[view].claims.iter().find_map(|claim| Some((claim.value(fact)?, claim.at))) {
                return Some(told);
            }
            let rest = || self.named(view, "the rest is as in ");
            view = self.named(view, "everything is as in ").or_else(rest)?;
        }
        None
    }
}

impl Claim {
    /// The value, if this is a claim about the fact.
    fn value(&self, fact: &Fact) -> Option<usize> {
        let value = self.words.strip_prefix(&fact.name)?;
        let value = value.strip_prefix(" is ").or_else(|| value.strip_prefix(" are "))?;
        fact.values.iter().position(|known| known == value)
    }
}
