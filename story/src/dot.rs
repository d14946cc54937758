//! Pictures, as text for Graphviz: the views with an arrow for each belief, and what happenings need and change.

use std::fmt::Write;

use crate::decode::{self, Unreadable};
use crate::names::{chain_text, labels, Names};
use crate::pack::{Action, Condition, Effect};
use crate::print::{belief, how, people};
use crate::shown::Shown;
use crate::source::Filled;
use crate::write::Part;
use crate::Story;

/// A story: its views, and its facts with the actions and triggers that look at them and change them.
pub fn story(story: &Story) -> String {
    let Story { pack, names, .. } = story;
    let mut out = opening();
    out += "    subgraph cluster_views {\n        label=\"what is so, and what is believed\";\n";
    out += &views(&Shown::of(story));
    out += "    }\n    subgraph cluster_plot {\n        label=\"what can happen\";\n";
    for (i, fact) in names.facts.iter().enumerate() {
        line(&mut out, &format!("f{i} [shape=ellipse, label={}];", quoted(&fact.name)));
    }
    for (i, (action, name)) in pack.actions.iter().zip(&names.actions).enumerate() {
        let text = [vec![name.clone()], agents(names, action)].concat();
        line(&mut out, &format!("a{i} [label={}];", lines(&text)));
        out += &arrows(names, &format!("a{i}"), &action.condition, &action.effects);
    }
    for (i, (trigger, name)) in pack.triggers.iter().zip(&names.triggers).enumerate() {
        line(&mut out, &format!("t{i} [style=rounded, label={}];", quoted(name)));
        out += &arrows(names, &format!("t{i}"), &trigger.condition, &trigger.effects);
    }
    out + "    }\n}\n"
}

/// A chart under a story: its views.
pub fn chart(story: &Story, bytes: &[u8]) -> Result<String, Unreadable> {
    let nodes = decode::chart(&story.pack, bytes)?;
    let shown = Shown { names: &story.names, nodes: &nodes, labels: &labels(&nodes), source: None };
    Ok(opening() + &views(&shown) + "}\n")
}

fn opening() -> String {
    "digraph story {\n    rankdir=LR;\n    node [shape=box];\n".to_string()
}

/// A box for each view, the truth with a double border; an arrow from a view to what is believed in it, with the names
/// of those who believe it. What a short form of the text filled has its line behind it.
fn views(shown: &Shown) -> String {
    let mut out = String::new();
    for (view, node) in shown.nodes.iter().enumerate() {
        let facts = node.values.iter().enumerate().map(|(fact, &value)| {
            let told = belief(shown.names, &[], fact, value);
            shown.filled(Part::Value(view, fact)).map_or(told.clone(), |filled| format!("{told} {}", by_line(filled)))
        });
        let label = shown.labels[view].text(&shown.names.characters);
        let text: Vec<String> = std::iter::once(label).chain(facts).collect();
        let border = if view == 0 { "peripheries=2, " } else { "" };
        line(&mut out, &format!("n{view} [{border}label={}];", lines(&text)));
        (0..shown.nodes.len()).for_each(|next| out += &believers(shown, view, next));
    }
    out
}

/// The arrow from a view to another, and one for those whom a short form speaks of.
fn believers(shown: &Shown, view: usize, next: usize) -> String {
    let mut out = String::new();
    let beliefs = &shown.nodes[view].beliefs;
    let all: Vec<usize> = (0..beliefs.len()).filter(|&character| beliefs[character] == next).collect();
    let short = |character: &usize| shown.filled(Part::Belief(view, *character));
    let (filled, said): (Vec<usize>, Vec<usize>) = all.into_iter().partition(|character| short(character).is_some());
    for who in [said, filled].iter().filter(|who| !who.is_empty()) {
        let mark = short(&who[0]).map(by_line);
        let text: Vec<String> = std::iter::once(people(shown.names, who)).chain(mark).collect();
        line(&mut out, &format!("n{view} -> n{next} [label={}];", lines(&text)));
    }
    out
}

fn by_line(filled: &Filled) -> String {
    format!("(by line {})", filled.at.at.line)
}

/// Who does an action, who sees it, and who sees it at times.
fn agents(names: &Names, action: &Action) -> Vec<String> {
    let observers = |wanted: fn(&Condition) -> bool| {
        let found = (0..action.observations.len()).filter(|&character| wanted(&action.observations[character]));
        found.collect::<Vec<_>>()
    };
    let at_times = |seen: &Condition| !seen.is_never() && !seen.is_always();
    let told = [
        ("by", action.consenters.clone()),
        ("seen by", observers(Condition::is_always)),
        ("at times seen by", observers(at_times)),
    ];
    let told = told.into_iter().filter(|(_, who)| !who.is_empty());
    told.map(|(how, who)| format!("{how} {}", people(names, &who))).collect()
}

/// From each fact that a condition looks at, and to each fact that the effects change. Those in a belief are dashed.
fn arrows(names: &Names, happening: &str, condition: &Condition, effects: &[Effect]) -> String {
    let mut arrows = Vec::new();
    for test in condition.tests() {
        let value = &names.facts[test.fluent].values[test.value];
        let ends = format!("f{} -> {happening}", test.fluent);
        arrows.push(arrow(names, ends, &test.chain, format!("{}{value}", how(test.how))));
    }
    for effect in effects {
        let chain: Vec<usize> = effect.whom.into_iter().collect();
        let value = names.facts[effect.fluent].values[effect.value].clone();
        arrows.push(arrow(names, format!("{happening} -> f{}", effect.fluent), &chain, value));
    }
    let mut out = String::new();
    for (i, told) in arrows.iter().enumerate() {
        if !arrows[..i].contains(told) {
            line(&mut out, told);
        }
    }
    out
}

fn arrow(names: &Names, ends: String, chain: &[usize], value: String) -> String {
    if chain.is_empty() {
        return format!("{ends} [label={}];", quoted(&value));
    }
    let text = [chain_text(chain, &names.characters), value];
    format!("{ends} [style=dashed, label={}];", lines(&text))
}

fn line(out: &mut String, text: &str) {
    // Writing to a string can't fail.
    let _ = writeln!(out, "        {text}");
}

/// A label of several lines.
fn lines(text: &[String]) -> String {
    let lines: Vec<String> = text.iter().map(|line| escaped(line)).collect();
    format!("\"{}\"", lines.join("\\n"))
}

fn quoted(text: &str) -> String {
    format!("\"{}\"", escaped(text))
}

fn escaped(text: &str) -> String {
    text.replace('\\', "\\\\").replace('"', "\\\"")
}
