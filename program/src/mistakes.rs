//! Who believes what wrongly: a character's belief against what is so, and against what others believe, at every depth.

use std::collections::{HashSet, VecDeque};

use story::decode;
use story::pack::Node;
use story::print::belief;
use story::Names;

use crate::said::Refused;
use crate::stage::Stage;

/// A belief that is wrong: the first of the chain believes it of the others, or of the facts, and it is not so.
pub struct Mistake {
    pub chain: Vec<usize>,
    pub fact: usize,
    pub believed: usize,
    pub so: usize,
}

impl Mistake {
    /// `Ada believes the letter is burnt (the letter is in the desk)`
    pub fn told(&self, names: &Names) -> String {
        let Mistake { chain, fact, believed, so } = self;
        format!("{} ({})", belief(names, chain, *fact, *believed), belief(names, &chain[1..], *fact, *so))
    }
}

/// Two nodes side by side: what the first of a chain believes, and what that is about.
#[derive(Clone, Copy, PartialEq, Eq, Hash)]
struct Pair {
    believed: usize,
    so: usize,
}

/// All mistakes in a state, those of short chains first. For each believer every pair of nodes is met once, by the
/// shortest chain.
pub fn mistakes(stage: &mut Stage, chart: &[u8]) -> Result<Vec<Mistake>, Refused> {
    let nodes = asked(stage, chart)?;
    let first = nodes[0].beliefs.iter().enumerate();
    let mut open: VecDeque<_> = first.map(|(who, &believed)| (vec![who], Pair { believed, so: 0 }, None)).collect();
    let mut met: HashSet<_> = open.iter().map(|(chain, pair, _)| (chain[0], *pair)).collect();
    let mut found = Vec::new();
    while let Some((chain, pair, before)) = open.pop_front() {
        if pair.believed == pair.so {
            continue;
        }
        found.extend(at_pair(&nodes, &chain, pair, before));
        let (believed, so) = (&nodes[pair.believed].beliefs, &nodes[pair.so].beliefs);
        for (next, (&believed, &so)) in believed.iter().zip(so).enumerate() {
            let then = Pair { believed, so };
            if met.insert((chain[0], then)) {
                open.push_back(([&chain[..], &[next]].concat(), then, Some(pair)));
            }
        }
    }
    Ok(found)
}

/// The nodes of a chart: where chains lead is the chart's to say; the values there are asked for by Query, by the chain
/// that meets a node first.
fn asked(stage: &mut Stage, chart: &[u8]) -> Result<Vec<Node>, Refused> {
    let chart_nodes = decode::chart(&stage.story.pack, chart);
    let mut nodes = chart_nodes.map_err(|unreadable| Refused::new(unreadable.to_string()))?;
    let mut met = HashSet::from([0]);
    let mut open = VecDeque::from([(Vec::new(), 0)]);
    while let Some((chain, node)) = open.pop_front() {
        for fact in 0..nodes[node].values.len() {
            nodes[node].values[fact] = stage.value(chart, &chain, fact)?;
        }
        for (next, &believed) in nodes[node].beliefs.iter().enumerate() {
            if met.insert(believed) {
                open.push_back(([&chain[..], &[next]].concat(), believed));
            }
        }
    }
    Ok(nodes)
}

/// The facts that a chain's first character is wrong about. Left out is what follows from the pair before it: somebody
/// who is wrong about a fact and takes another to be of the same opinion.
fn at_pair(nodes: &[Node], chain: &[usize], pair: Pair, before: Option<Pair>) -> Vec<Mistake> {
    let values = |pair: Pair, fact: usize| (nodes[pair.believed].values[fact], nodes[pair.so].values[fact]);
    let mut found = Vec::new();
    for fact in 0..nodes[0].values.len() {
        let (believed, so) = values(pair, fact);
        let follows =
            before.map(|before| values(before, fact)).is_some_and(|(held, so)| held == believed && held != so);
        if believed != so && !follows {
            found.push(Mistake { chain: chain.to_vec(), fact, believed, so });
        }
    }
    found
}
