//! `ask`: what is so, or what somebody believes, by Query.

use story::print::belief;
use story::Names;

use crate::open::open;
use crate::said::{Refused, Said};

/// What is asked for: a fact where a chain leads, or whether it has a value there.
struct Asked {
    chain: Vec<usize>,
    fact: usize,
    value: Option<usize>,
}

pub fn ask(file: &str, question: &str, after: &str) -> Result<Said, Refused> {
    let mut stage = open(file)?.stage;
    let Asked { chain, fact, value } = asked(stage.names(), question)?;
    let chart = stage.after(after)?;
    let found = stage.value(&chart, &chain, fact)?;
    let told = belief(stage.names(), &chain, fact, found);
    Ok(match value {
        None => Said::answer(told + "\n"),
        Some(value) if value == found => Said::answer(format!("yes: {told}\n")),
        Some(_) => Said::no(format!("no: {told}\n")),
    })
}

/// `Ada believes the cousin believes the letter`, and perhaps `is in the desk`
fn asked(names: &Names, question: &str) -> Result<Asked, Refused> {
    let words: Vec<&str> = question.split_whitespace().collect();
    let parts: Vec<String> = words.split(|&word| word == "believes").map(|part| part.join(" ")).collect();
    let (last, believers) = parts.split_last().expect("a cut leaves a part");
    let chain =
        believers.iter().map(|name| position("character", &names.characters, name)).collect::<Result<_, _>>()?;
    let (fact, value) = fact_and_value(last);
    let facts: Vec<String> = names.facts.iter().map(|fact| fact.name.clone()).collect();
    let fact = position("fact", &facts, &fact)?;
    let value = value.map(|value| position("value", &names.facts[fact].values, &value)).transpose()?;
    Ok(Asked { chain, fact, value })
}

/// A fact's name, and what stands behind `is` or `are`.
fn fact_and_value(part: &str) -> (String, Option<String>) {
    let words: Vec<&str> = part.split(' ').collect();
    match words.iter().position(|word| matches!(*word, "is" | "are")) {
        Some(at) => (words[..at].join(" "), Some(words[at + 1..].join(" "))),
        None => (part.to_string(), None),
    }
}

fn position(what: &str, known: &[String], name: &str) -> Result<usize, Refused> {
    known.iter().position(|known| known == name).ok_or_else(|| {
        let known: Vec<String> = known.iter().map(|name| format!("'{name}'")).collect();
        Refused::new(format!("there is no {what} '{name}', expected one of {}", known.join(", ")))
    })
}
