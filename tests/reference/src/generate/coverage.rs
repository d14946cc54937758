//! What generated calls meet: a table of how many calls met each thing that is worth meeting.

use std::collections::BTreeMap;

use super::{answer, Ask, Call};
use crate::call::{Answer, Outcome};
use crate::chart;
use crate::condition::holds;
use crate::graph::Node;
use crate::happening;
use crate::pack::{self, Pack};
use crate::refusal::{without_place, NO_ENDING, ROUNDS, STATES};
use crate::state::State;

#[derive(Default)]
pub struct Coverage {
    pub counts: BTreeMap<String, usize>,
}

impl Coverage {
    /// What the calls of these seeds meet.
    pub fn of(seeds: std::ops::Range<u64>) -> Coverage {
        let mut coverage = Coverage::default();
        for seed in seeds {
            let call = super::call(seed);
            let answer = answer(&call);
            coverage.add(&call, &answer);
        }
        coverage
    }

    pub fn count(&self, what: &str) -> usize {
        self.counts.get(what).copied().unwrap_or(0)
    }

    fn note(&mut self, what: String) {
        *self.counts.entry(what).or_insert(0) += 1;
    }

    fn add(&mut self, call: &Call, answer: &Answer) {
        let name = name(&call.ask);
        match &answer.outcome {
            Outcome::Refused(refusal) => {
                self.note(format!("refused {:02}", refusal.number));
                self.note(format!("{name}: refused {:02}", refusal.number));
            }
            Outcome::Text(text) if text.starts_with("refused") => {
                let number = text.split(' ').nth(1).unwrap();
                self.note(format!("{name}: refused {number:0>2}"));
            }
            _ => self.note(format!("{name}: answered")),
        }
        let Ok(pack) = pack::read(&call.pack) else { return };
        if !matches!(answer.outcome, Outcome::Refused(refusal) if refusal.number < 10 || refusal.number > 20) {
            self.sizes(&pack, call);
            self.details(&pack, call, answer);
        }
    }

    fn sizes(&mut self, pack: &Pack, call: &Call) {
        for (what, met) in [
            ("a pack of 8,192 bytes", call.pack.len() == 8_192),
            ("a pack with 1 character", pack.characters == 1),
            ("a pack with 6 characters", pack.characters == 6),
            ("a pack with 24 fluents", pack.domains.len() == 24),
            ("a pack with 32 nodes", pack.nodes.len() == 32),
            ("a pack with 32 actions", pack.actions.len() == 32),
            ("a pack with 16 triggers", pack.triggers.len() == 16),
            ("a pack with a domain of 128", pack.domains.contains(&128)),
        ] {
            if met {
                self.note(format!("size: {what}"));
            }
        }
    }

    fn details(&mut self, pack: &Pack, call: &Call, answer: &Answer) {
        match &call.ask {
            Ask::Compare { first, second } => match answer.outcome {
                Outcome::Differs(found) => self.note(format!("compare: chain of {:02}", found.length)),
                _ if first != second => self.note("compare: same in other bytes".to_string()),
                _ => {}
            },
            Ask::Step { chart, action } => {
                self.beliefs(pack, &chart::table(pack, chart).unwrap());
                self.rounds(pack, chart, *action as usize);
            }
            Ask::Search { .. } | Ask::Explained { .. } => {
                self.beliefs(pack, &pack.nodes);
                if let Outcome::Found(found) = answer.outcome {
                    self.note(format!("search: list of {}", found.length));
                    let list = &answer.result[..found.length];
                    if list.iter().any(|&action| pack.actions[action as usize].consenters.len() > 1) {
                        self.note("search: list with several consenters".to_string());
                    }
                }
                if let Outcome::Verdict(yes) = answer.outcome {
                    self.note(format!("explained: {yes}"));
                }
                self.limits(call, answer);
            }
            Ask::Start | Ask::Query { .. } | Ask::Ending => {}
        }
    }

    /// How many rounds a step took and how many states it left or stopped at.
    fn rounds(&mut self, pack: &Pack, chart: &[u8], action: usize) {
        let state = chart::read(pack, chart).unwrap();
        if !holds(&pack.actions[action].condition, &state, 0) {
            return;
        }
        let (outcome, rounds) = happening::course(pack, &state, action);
        match outcome {
            Ok(next) => {
                self.note(format!("step: settled after {rounds:02} rounds"));
                self.note(format!("step: {:02} states left", next.nodes().len()));
                if pack.actions[action].effects.iter().any(|effect| effect.whom > 0) {
                    self.note("step: effects into beliefs".to_string());
                }
                if pack.triggers.iter().any(|trigger| trigger.effects.iter().any(|effect| effect.whom > 0))
                    && rounds > 0
                {
                    self.note("step: triggers with effects into beliefs".to_string());
                }
            }
            Err(STATES) => self.note(format!("step: too many states after {rounds:02} rounds")),
            Err(ROUNDS) => self.note("step: a seventeenth round needed".to_string()),
            Err(_) => {}
        }
    }

    /// Which limits matter: the answer is another one if a limit is one lower. And near misses: there is no ending, but
    /// there would be if a limit were one higher.
    fn limits(&mut self, call: &Call, given: &Answer) {
        let name = name(&call.ask);
        for (what, limit, least, _) in limits(&call.ask) {
            if limit > least && asked(call, what, limit - 1).outcome != given.outcome {
                self.note(format!("{name}: {what} limit {limit} matters"));
            }
        }
        if given.outcome == Outcome::Refused(without_place(NO_ENDING)) {
            for (what, limit, _, most) in limits(&call.ask) {
                if limit < most && asked(call, what, limit + 1).outcome != given.outcome {
                    self.note(format!("{name}: near miss by the {what} limit"));
                }
            }
        }
    }

    /// Whether somebody is mistaken, and whether somebody has a false belief about what another believes.
    fn beliefs(&mut self, pack: &Pack, nodes: &[Node]) {
        let state = State::new(nodes, 0);
        let found = |chain: &[usize]| &state.follow(0, chain).values;
        let characters = || 0..pack.characters;
        if characters().any(|c| found(&[c]) != found(&[])) {
            self.note("a false belief".to_string());
        }
        let nested = |c: usize, d: usize| c != d && found(&[c, d]) != found(&[c]) && found(&[c, d]) != found(&[d]);
        if characters().any(|c| characters().any(|d| nested(c, d))) {
            self.note("a nested false belief".to_string());
        }
    }
}

/// The limits of a question: what each is, and its least and greatest value.
fn limits(ask: &Ask) -> Vec<(&'static str, u64, u64, u64)> {
    match ask {
        Ask::Search { story, foresight, nesting } => {
            vec![("story", *story, 1, 8), ("foresight", *foresight, 1, 6), ("nesting", *nesting, 0, 3)]
        }
        Ask::Explained { foresight, nesting, .. } => vec![("foresight", *foresight, 1, 6), ("nesting", *nesting, 0, 3)],
        _ => Vec::new(),
    }
}

/// The answer to a question with one limit changed.
fn asked(call: &Call, what: &str, limit: u64) -> Answer {
    let mut call = call.clone();
    match (&mut call.ask, what) {
        (Ask::Search { story, .. }, "story") => *story = limit,
        (Ask::Search { foresight, .. } | Ask::Explained { foresight, .. }, "foresight") => *foresight = limit,
        (Ask::Search { nesting, .. } | Ask::Explained { nesting, .. }, "nesting") => *nesting = limit,
        _ => unreachable!("no such limit"),
    }
    answer(&call)
}

fn name(ask: &Ask) -> &'static str {
    match ask {
        Ask::Start => "start",
        Ask::Query { .. } => "query",
        Ask::Compare { .. } => "compare",
        Ask::Step { .. } => "step",
        Ask::Explained { .. } => "explained",
        Ask::Search { .. } => "search",
        Ask::Ending => "ending",
    }
}
