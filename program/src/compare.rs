//! `compare`: whether two lists of actions leave the same state, or the shortest chain of beliefs to a difference.

use pirwodd::Comparison;
use story::print::belief;

use crate::open::open;
use crate::said::{Refused, Said};

pub fn compare(file: &str, first: &str, second: &str) -> Result<Said, Refused> {
    let mut stage = open(file)?.stage;
    let (one, other) = (stage.after(first)?, stage.after(second)?);
    Ok(match stage.compare(&one, &other)? {
        Comparison::Same => Said::answer("The same: no belief about beliefs of any depth tells them apart.\n"),
        Comparison::Differ { chain, fluent } => {
            let (chain, fact): (Vec<usize>, _) = (chain.iter().map(|who| who.0.into()).collect(), fluent.0.into());
            let values = [stage.value(&one, &chain, fact)?, stage.value(&other, &chain, fact)?];
            let [one, other] = values.map(|value| belief(stage.names(), &chain, fact, value));
            Said::no(format!("They differ:\n  after the first, {one}\n  after the second, {other}\n"))
        }
    })
}
