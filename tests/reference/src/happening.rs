//! Happenings: an action in a state, with its observation, and the rounds of triggers that follow.
//!
//! Each part describes the nodes of the new graph by what they come from. The descriptions are numbered by `grow`, and
//! the graph that comes out is merged into a state.

use crate::condition::holds;
use crate::graph::{grow, Node};
use crate::pack::{Action, Effect, Pack, MOST_NODES};
use crate::refusal::{CONDITION, ROUNDS, STATES};
use crate::state::State;

pub const MOST_ROUNDS: usize = 16;

/// The state that an action leaves, or the number of the refusal: 10, 11 or 12.
pub fn step(pack: &Pack, state: &State, action: usize) -> Result<State, u8> {
    let action = &pack.actions[action];
    if !holds(&action.condition, state, 0) {
        return Err(CONDITION);
    }
    settle(pack, act(action, state)).0
}

/// Part 1. A node of the new graph comes from a node of the old one, which takes the action or not, and which has
/// the effects meant for a character's belief written into it or not.
#[derive(Clone, PartialEq, Eq, Hash)]
struct Part {
    node: usize,
    acts: bool,
    written: Option<usize>,
}

/// The graph after part 1. Observation is judged in the old state that holds the belief; what a belief that doesn't
/// take the action believes in turn is as it was.
fn act(action: &Action, state: &State) -> Vec<Node> {
    let root = Part { node: 0, acts: true, written: None };
    grow(root, |part| {
        let old = &state.nodes()[part.node];
        let mut values = old.values.clone();
        if part.acts {
            write(&action.effects, 0, &mut values);
        }
        if let Some(character) = part.written {
            write(&action.effects, character + 1, &mut values);
        }
        let believed = old.beliefs.iter().enumerate().map(|(character, &node)| Part {
            node,
            acts: part.acts && holds(&action.observations[character], state, part.node),
            written: if part.acts { Some(character) } else { None },
        });
        (values, believed.collect())
    })
}

/// Writes the effects meant for `whom`, in order, later ones winning.
fn write(effects: &[Effect], whom: usize, values: &mut [u8]) {
    for effect in effects.iter().filter(|effect| effect.whom == whom) {
        values[effect.fluent] = effect.value;
    }
}

/// Part 2: rounds until no trigger holds anywhere. Gives the outcome and how many rounds were made.
/// The limit of states is tested after part 1 and after each round, before the limit of rounds.
pub fn settle(pack: &Pack, graph: Vec<Node>) -> (Result<State, u8>, usize) {
    let mut state = State::new(&graph, 0);
    for rounds in 0.. {
        if state.nodes().len() > MOST_NODES {
            return (Err(STATES), rounds);
        }
        let fired: Vec<Option<usize>> = (0..state.nodes().len()).map(|node| fires(pack, &state, node)).collect();
        if fired.iter().all(Option::is_none) {
            return (Ok(state), rounds);
        }
        if rounds == MOST_ROUNDS {
            return (Err(ROUNDS), rounds);
        }
        state = State::new(&round(pack, &state, &fired), 0);
    }
    unreachable!()
}

/// The lowest trigger that holds in the state at a node.
fn fires(pack: &Pack, state: &State, node: usize) -> Option<usize> {
    pack.triggers.iter().position(|trigger| holds(&trigger.condition, state, node))
}

/// The graph after one round, given the trigger that fires at each node. A node of the new graph comes from a node of
/// the old one and, if the state that holds the belief fires too, has that trigger's effects for the belief written
/// into it after its own.
fn round(pack: &Pack, state: &State, fired: &[Option<usize>]) -> Vec<Node> {
    let root: (usize, Option<(usize, usize)>) = (0, None);
    grow(root, |&(node, written)| {
        let old = &state.nodes()[node];
        let mut values = old.values.clone();
        if let Some(trigger) = fired[node] {
            write(&pack.triggers[trigger].effects, 0, &mut values);
        }
        if let Some((trigger, character)) = written {
            write(&pack.triggers[trigger].effects, character + 1, &mut values);
        }
        let believed = old.beliefs.iter().enumerate().map(|(character, &next)| {
            let into = fired[node].map(|trigger| (trigger, character));
            (next, into)
        });
        (values, believed.collect())
    })
}

/// How an action goes where its condition holds: the outcome of its rounds and their number.
pub fn course(pack: &Pack, state: &State, action: usize) -> (Result<State, u8>, usize) {
    settle(pack, act(&pack.actions[action], state))
}

/// The state after part 1 and so many rounds, whatever the limits say.
pub fn after_rounds(pack: &Pack, state: &State, action: usize, rounds: usize) -> State {
    (0..rounds).fold(State::new(&act(&pack.actions[action], state), 0), |state, _| {
        let at = |node| fires(pack, &state, node);
        let fired: Vec<Option<usize>> = (0..state.nodes().len()).map(at).collect();
        State::new(&round(pack, &state, &fired), 0)
    })
}
