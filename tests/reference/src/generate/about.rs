//! Calls about a pack that was drawn, with charts that suit it.

use super::random::Random;
use super::{draft, tables, Ask, Call};
use crate::calls::search_pack;
use crate::chart;
use crate::condition::holds;
use crate::graph::Node;
use crate::happening::step;
use crate::pack::Pack;
use crate::state::State;

/// Any of the calls about a pack.
pub fn any(r: &mut Random, pack: &Pack, story: usize, foresight: usize, nesting: usize) -> Call {
    let bytes = draft::bytes(pack);
    let mut table = table(r, pack);
    if r.chance(1, 3) {
        table = tables::equivalent(r, &table);
    }
    let chart = chart::bytes(&table);
    let (action, character) = deed(r, pack, &table);
    let ask = match r.below(12) {
        0 => Ask::Start,
        1 => Ask::Query { chart, chain: chain(r, pack), fluent: r.below(pack.domains.len()) as u64 },
        2 => {
            let second = chart::bytes(&self::table(r, pack));
            Ask::Compare { first: chart, second }
        }
        3..=6 => Ask::Step { chart, action },
        7 | 8 => Ask::Explained { chart, character, action, foresight: foresight as u64, nesting: nesting as u64 },
        9 | 10 => return search(pack, story, foresight, nesting),
        _ => Ask::Ending,
    };
    Call::new(bytes, ask)
}

/// An action and a character: mostly an action whose condition holds there, or in somebody's belief, and one of
/// its consenters.
pub fn deed(r: &mut Random, pack: &Pack, table: &[Node]) -> (u64, u64) {
    let mut state = State::new(table, 0);
    if r.chance(1, 4) {
        state = state.belief(r.below(pack.characters));
    }
    let playable = |&a: &usize| holds(&pack.actions[a].condition, &state, 0);
    let mut actions: Vec<usize> = (0..pack.actions.len()).filter(playable).collect();
    if actions.is_empty() || r.chance(1, 6) {
        actions = (0..pack.actions.len().max(1)).collect();
    }
    let action = r.pick(&actions);
    let consenters = pack.actions.get(action).map_or(&[][..], |action| &action.consenters);
    let character = if consenters.is_empty() || r.chance(1, 5) { r.below(pack.characters) } else { r.pick(consenters) };
    (action as u64, character as u64)
}

pub fn search(pack: &Pack, story: usize, foresight: usize, nesting: usize) -> Call {
    let ask = Ask::Search { story: story as u64, foresight: foresight as u64, nesting: nesting as u64 };
    Call::new(draft::bytes(pack), ask)
}

pub fn step_from(r: &mut Random, pack: &Pack, action: u64) -> Call {
    let table = if r.chance(1, 3) { tables::equivalent(r, &pack.nodes) } else { pack.nodes.clone() };
    Call::new(draft::bytes(pack), Ask::Step { chart: chart::bytes(&table), action })
}

/// A step of an action that mostly may be done there, from the pack's own nodes, a random table, or what some steps lead
/// to.
pub fn step_somewhere(r: &mut Random, pack: &Pack) -> Call {
    let mut table = table(r, pack);
    if r.chance(1, 3) {
        table = tables::equivalent(r, &table);
    }
    let (action, _) = deed(r, pack, &table);
    Call::new(draft::bytes(pack), Ask::Step { chart: chart::bytes(&table), action })
}

/// A table for a chart under a pack: the pack's own, a random one, or what some steps lead to.
fn table(r: &mut Random, pack: &Pack) -> Vec<Node> {
    if r.chance(1, 4) {
        let count = r.from(1, 5);
        return tables::random(r, pack.characters, &pack.domains, count);
    }
    let mut state = State::new(&pack.nodes, 0);
    for _ in 0..r.pick(&[0, 0, 1, 2, 3, 6]) {
        if pack.actions.is_empty() {
            break;
        }
        if let Ok(next) = step(pack, &state, r.below(pack.actions.len())) {
            state = next;
        }
    }
    state.nodes().to_vec()
}

/// A chain of characters, now and then a long one.
pub fn chain(r: &mut Random, pack: &Pack) -> Vec<u8> {
    let length = r.pick(&[0, 1, 1, 2, 3, 5, 17, 255, 300, 1_000]);
    (0..length).map(|_| r.below(pack.characters) as u8).collect()
}

/// Asks for the explanation of an action of the pack's ending, in the state before it.
pub fn on_the_way(r: &mut Random, pack: &Pack, foresight: usize, nesting: usize) -> Call {
    let Ok(ending) = search_pack(pack, 8, 6, 3) else { return any(r, pack, 1, foresight, nesting) };
    let at = r.below(ending.actions.len());
    let mut state = State::new(&pack.nodes, 0);
    for &action in &ending.actions[..at] {
        state = step(pack, &state, action).unwrap();
    }
    let action = ending.actions[at];
    let consenters = &pack.actions[action].consenters;
    let character = if consenters.is_empty() { r.below(pack.characters) } else { r.pick(consenters) };
    let (action, character) = (action as u64, character as u64);
    let mut table = tables::equivalent(r, state.nodes());
    if table.len() < 32 && r.chance(1, 3) {
        table = tables::mistaken(r, &table, &pack.domains);
    }
    let chart = chart::bytes(&table);
    let (foresight, nesting) = (foresight as u64, nesting as u64);
    Call::new(draft::bytes(pack), Ask::Explained { chart, character, action, foresight, nesting })
}
