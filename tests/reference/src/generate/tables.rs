//! Tables of nodes: random ones, ones that mean the same, and ones that differ only after a long chain.

use super::random::Random;
use crate::graph::Node;

/// A random table. With a leaning to few different values, so that nodes agree in part.
pub fn random(r: &mut Random, characters: usize, domains: &[usize], count: usize) -> Vec<Node> {
    let calm = r.from(1, 4);
    let base: Vec<u8> = domains.iter().map(|&size| r.below(size) as u8).collect();
    (0..count)
        .map(|_| {
            let value = |(f, &size): (usize, &usize)| if r.chance(calm, 5) { base[f] } else { r.below(size) as u8 };
            let values = domains.iter().enumerate().map(value).collect();
            let beliefs = (0..characters).map(|_| r.below(count)).collect();
            Node { values, beliefs }
        })
        .collect()
}

/// Another table whose node 0 means the same: nodes doubled as far as 32 allow, then all but node 0 permuted.
pub fn equivalent(r: &mut Random, table: &[Node]) -> Vec<Node> {
    let mut nodes = table.to_vec();
    let mut twins: Vec<Vec<usize>> = (0..table.len()).map(|i| vec![i]).collect();
    let more = r.below(33usize.saturating_sub(table.len()).max(1));
    for _ in 0..more {
        let original = r.below(table.len());
        twins[original].push(nodes.len());
        nodes.push(table[original].clone());
    }
    for node in &mut nodes {
        for next in &mut node.beliefs {
            *next = r.pick(&twins[*next]);
        }
    }
    permute(r, nodes)
}

/// The same table with its nodes after the first in another order.
fn permute(r: &mut Random, nodes: Vec<Node>) -> Vec<Node> {
    let mut order: Vec<usize> = (0..nodes.len()).collect();
    r.shuffle(&mut order[1..]);
    let mut place = vec![0; nodes.len()];
    order.iter().enumerate().for_each(|(new, &old)| place[old] = new);
    let moved = |&old: &usize| {
        let beliefs = nodes[old].beliefs.iter().map(|&next| place[next]).collect();
        Node { values: nodes[old].values.clone(), beliefs }
    };
    order.iter().map(moved).collect()
}

/// A table with one value or one belief changed.
pub fn altered(r: &mut Random, table: &[Node], domains: &[usize]) -> Vec<Node> {
    let mut nodes = table.to_vec();
    let count = nodes.len();
    let node = &mut nodes[r.below(count)];
    if r.chance(1, 2) {
        let character = r.below(node.beliefs.len());
        node.beliefs[character] = r.below(count);
    } else {
        let fluent = r.below(domains.len());
        node.values[fluent] = r.below(domains[fluent]) as u8;
    }
    nodes
}

/// A table in which everyone believes what the given one means, and the truth is another.
pub fn mistaken(r: &mut Random, table: &[Node], domains: &[usize]) -> Vec<Node> {
    let values = domains.iter().map(|&size| r.below(size) as u8).collect();
    let truth = Node { values, beliefs: vec![1; table[0].beliefs.len()] };
    let moved = table.iter().map(|node| {
        let beliefs = node.beliefs.iter().map(|&next| next + 1).collect();
        Node { values: node.values.clone(), beliefs }
    });
    std::iter::once(truth).chain(moved).collect()
}

/// A ring in which character 0's beliefs go through all nodes, the others' anywhere, and `fluent` numbers the nodes.
pub fn ring(r: &mut Random, characters: usize, fluents: usize, fluent: usize, count: usize) -> Vec<Node> {
    (0..count)
        .map(|i| {
            let mut values = vec![0; fluents];
            values[fluent] = i as u8;
            let mut beliefs: Vec<usize> = (0..characters).map(|_| r.below(count)).collect();
            beliefs[0] = (i + 1) % count;
            Node { values, beliefs }
        })
        .collect()
}

/// Two tables that differ first after exactly `length` (1 to 62) beliefs of the characters that move; the others'
/// beliefs are of the state itself. Both are words read along the beliefs, one of period p and one of period p - 1,
/// after a first node where an even length needs it. By Fine and Wilf such words can agree for 2p - 3 letters.
pub fn long_difference(r: &mut Random, characters: usize, fluents: usize, length: usize) -> (Vec<Node>, Vec<Node>) {
    let even = length.is_multiple_of(2);
    let period = if even { (length + 2) / 2 } else { (length + 3) / 2 };
    let word = agreeing(period, period - 1);
    let moves: Vec<bool> = (0..characters).map(|_| r.chance(2, 3)).collect();
    let mover = r.below(characters);
    let (marked, lead) = (r.below(fluents), even as usize);
    let node = |letter: u8, here: usize, next: usize| {
        let mut values = vec![0; fluents];
        values[marked] = letter;
        let beliefs = (0..characters).map(|c| if moves[c] || c == mover { next } else { here }).collect();
        Node { values, beliefs }
    };
    // The longer period's first letter moves to its end where the other table has a first node of its own.
    let first = (0..period).map(|i| node(letter(&word, period, i + period - lead), i, (i + 1) % period)).collect();
    let short = period - 1;
    let head = letter(&word, period, period - lead);
    let mut second: Vec<Node> = if even { vec![node(head, 0, 1)] } else { Vec::new() };
    second.extend((0..short).map(|i| node(letter(&word, short, i), i + lead, (i + 1) % short + lead)));
    (first, second)
}

/// The letter at `i` of a word continued with its period.
fn letter(word: &[u8], period: usize, i: usize) -> u8 {
    word[i % period]
}

/// A word of length p + q - 2 that has both periods and yet two letters, for coprime p and q; padded to p.
fn agreeing(p: usize, q: usize) -> Vec<u8> {
    let length = (p + q - 2).max(p);
    let mut word: Vec<Option<u8>> = vec![None; length];
    for fresh in [0, 1] {
        let Some(seed) = word.iter().position(Option::is_none) else { break };
        word[seed] = Some(fresh);
        loop {
            let known = |j: usize, word: &[Option<u8>]| word.get(j).copied().flatten();
            let spread = (0..p + q - 2).find_map(|i| {
                if word[i].is_some() {
                    return None;
                }
                let near = [i + p, i + q, i.wrapping_sub(p), i.wrapping_sub(q)];
                near.iter().filter(|&&j| j < p + q - 2).find_map(|&j| known(j, &word)).map(|v| (i, v))
            });
            match spread {
                Some((i, value)) => word[i] = Some(value),
                None => break,
            }
        }
    }
    word.into_iter().map(|letter| letter.unwrap_or(0)).collect()
}
