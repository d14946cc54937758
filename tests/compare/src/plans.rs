//! Searches and explanations from a seed: stories with endings of every length, their neighbours, and stories at random,
//! under limits that are just enough, one off, or any.

use crate::asks::faulty;
use reference::call::{lent, Ask, Call};
use reference::calls::{CHART_ROOM, LIST_ROOM, WORK_ROOM};
use reference::chart;
use reference::generate::random::Random;
use reference::generate::stories::{self, Story};
use reference::generate::{about, draft, packs, tables, wander};
use reference::implementation::Implementation;
use reference::pack::Pack;
use reference::tuned::Engine;

/// Limits under which an ending is looked for, to ask about its actions.
const WIDE: (u64, u64, u64) = (8, 6, 3);

pub fn search(r: &mut Random) -> Call {
    let Story { pack, story, foresight, nesting } = story(r);
    faulty(r, about::search(&pack, story, foresight, nesting))
}

/// Several explanations about one pack: of the actions of its ending, each in the state before it, or of any action
/// anywhere.
pub fn explanations(r: &mut Random, engine: &mut Engine, count: usize) -> Vec<Call> {
    let Story { pack, foresight, nesting, .. } = story(r);
    let way = if r.chance(3, 4) { way(engine, &pack) } else { Vec::new() };
    (0..count)
        .map(|_| {
            let (chart, action) = if way.is_empty() || r.chance(1, 4) {
                somewhere(r, &pack)
            } else {
                let (chart, action) = r.pick(&way);
                (retold(r, &pack, &chart), action)
            };
            let character = somebody(r, &pack, action);
            let (foresight, nesting) = (near(r, foresight, 1, 6), near(r, nesting, 0, 3));
            faulty(r, Call::new(draft::bytes(&pack), Ask::Explained { chart, character, action, foresight, nesting }))
        })
        .collect()
}

/// A pack with actions, and limits for it.
fn story(r: &mut Random) -> Story {
    let (draw, story, foresight, nesting): (fn(&mut Random) -> Pack, _, _, _) = match r.below(16) {
        0..=7 => return just_enough(r),
        8 => return Story { story: r.from(1, 8), foresight: r.from(1, 6), nesting: r.from(0, 3), ..stories::story(r) },
        9 | 10 => (stories::tangle, r.from(2, 7), r.from(1, 4), r.from(0, 3)),
        11..=13 => (wander::wander, r.from(1, 5), r.from(1, 4), r.from(0, 3)),
        14 => (packs::small, r.from(1, 3), r.from(1, 3), r.from(0, 3)),
        _ => (packs::large, r.from(1, 2), r.from(1, 2), r.from(0, 1)),
    };
    Story { pack: draw(r), story, foresight, nesting }
}

/// A story under the limits that it needs, or with one of them one less.
fn just_enough(r: &mut Random) -> Story {
    let mut story = stories::story(r);
    match r.below(12) {
        0 => story.story = (story.story - 1).max(1),
        1 => story.foresight = (story.foresight - 1).max(1),
        2 => story.nesting = story.nesting.saturating_sub(1),
        _ => {}
    }
    story
}

/// The charts along a pack's ending, each with the action that comes next.
fn way(engine: &mut Engine, pack: &Pack) -> Vec<(Vec<u8>, u64)> {
    let pack = draft::bytes(pack);
    let (mut list, mut chart, mut work) = (lent(LIST_ROOM), lent(CHART_ROOM), vec![0; WORK_ROOM]);
    let (story, foresight, nesting) = WIDE;
    let Ok(found) = engine.search(&pack, story, foresight, nesting, &mut list, &mut work) else { return Vec::new() };
    let mut length = engine.start(&pack, &mut chart, &mut work).expect("the pack is read");
    let mut way = Vec::new();
    for &action in &list[..found.length] {
        way.push((chart[..length].to_vec(), action as u64));
        let before = chart[..length].to_vec();
        length = engine.step(&pack, &before, action as u64, &mut chart, &mut work).expect("the action is playable");
    }
    way
}

/// A chart that means the same, or in which everyone believes so and the truth is another.
fn retold(r: &mut Random, pack: &Pack, chart: &[u8]) -> Vec<u8> {
    let table = chart::table(pack, chart).expect("the chart is read");
    match r.below(4) {
        0 => chart::bytes(&tables::equivalent(r, &table)),
        1 if table.len() < 32 => chart::bytes(&tables::mistaken(r, &table, &pack.domains)),
        _ => chart.to_vec(),
    }
}

fn somewhere(r: &mut Random, pack: &Pack) -> (Vec<u8>, u64) {
    match about::step_somewhere(r, pack).ask {
        Ask::Step { chart, action } => (chart, action),
        ask => unreachable!("no step: {ask:?}"),
    }
}

/// Mostly one of the action's consenters.
fn somebody(r: &mut Random, pack: &Pack, action: u64) -> u64 {
    let consenters = pack.actions.get(action as usize).map_or(&[][..], |action| &action.consenters);
    let character = if consenters.is_empty() || r.chance(1, 5) { r.below(pack.characters) } else { r.pick(consenters) };
    character as u64
}

/// A limit, now and then one less or more.
fn near(r: &mut Random, limit: usize, least: usize, most: usize) -> u64 {
    let limit = match r.below(8) {
        0 => limit.saturating_sub(1),
        1 => limit + 1,
        _ => limit,
    };
    limit.clamp(least, most) as u64
}
