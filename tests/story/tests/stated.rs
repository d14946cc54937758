//! What a text states of beliefs, and what it is warned of, is so in the reference.

use reference::generate::draft::{self, effect, test, trigger, AT_LEAST};
use reference::generate::{self, random::Random};
use reference::happening::step;
use reference::pack::{self, Condition, Pack};
use reference::refusal::ROUNDS;
use reference::state::State;
use story::{print, read, Reading, Story};

fn reading(text: &str) -> Reading {
    read(text.as_bytes()).unwrap_or_else(|problems| panic!("{problems:?}\n{text}"))
}

/// Asks back what a story states; how much that is.
fn check(story: &Story) -> usize {
    let pack = pack::read(&story.bytes()).unwrap();
    let start = State::new(&pack.nodes, 0);
    let stated = story.stated();
    for told in &stated {
        let found = start.follow(0, &told.chain).values[told.fluent];
        assert_eq!(found as usize, told.value, "{told:?}");
    }
    stated.len()
}

/// The examples, whose short forms are at work, and what is printed of generated packs.
#[test]
fn beliefs() {
    for text in [
        include_str!("../../../examples/alice.story"),
        include_str!("../../../examples/letter.story"),
        include_str!("../../../examples/market.story"),
        include_str!("../../../examples/shoes.story"),
        include_str!("../../../story/tests/everything.story"),
    ] {
        assert!(check(&reading(text).story) > 8);
    }
    let mut stated = 0;
    for seed in 0..300 {
        let Ok(story) = Story::of_pack(&generate::call(seed).pack) else { continue };
        stated += check(&reading(&print::story(&story)).story);
    }
    assert!(stated > 10_000, "{stated}");
}

/// A pack of one view with an action that changes nothing, and triggers at random that look at the state itself.
fn with_triggers(r: &mut Random) -> Pack {
    let mut pack = draft::empty(1, &[2, 3, 3]);
    pack.actions.push(draft::action(&pack, draft::always(), Vec::new(), &[]));
    for _ in 0..r.from(1, 3) {
        let fact = |r: &mut Random| {
            let fact = r.below(3);
            (fact, r.below([2, 3, 3][fact]) as u8)
        };
        let alternative = |r: &mut Random| {
            let tests = (0..r.from(1, 2)).map(|_| {
                let (fact, value) = fact(r);
                test(&[], r.below(AT_LEAST + 1), fact, value)
            });
            tests.collect()
        };
        let alternatives = (0..r.from(1, 2)).map(|_| alternative(r)).collect();
        let effects = (0..r.from(1, 2)).map(|_| fact(r)).collect::<Vec<_>>();
        let effects = effects.into_iter().map(|(fact, value)| effect(0, fact, value)).collect();
        pack.triggers.push(trigger(Condition { alternatives }, effects));
    }
    pack
}

/// The states of such a pack in which its action isn't playable, for a trigger holds after the last round.
fn restless(pack: &mut Pack) -> usize {
    let mut found = 0;
    for values in (0..18u8).map(|i| vec![i % 2, i / 2 % 3, i / 6]) {
        pack.nodes[0].values = values;
        found += (step(pack, &State::new(&pack.nodes, 0), 0) == Err(ROUNDS)) as usize;
    }
    found
}

/// Where triggers look at the state itself, nearly all warnings that one may never rest are right, and nearly all packs
/// with such a trigger are warned of.
#[test]
fn triggers() {
    let (mut right, mut wrong, mut missed, mut resting) = (0, 0, 0, 0);
    for seed in 0..3_000 {
        let mut pack = with_triggers(&mut Random::new(seed));
        let text = print::story(&Story::of_pack(&draft::bytes(&pack)).unwrap());
        let warnings = reading(&text).warnings;
        let warned = warnings.iter().any(|warning| warning.message.contains("may never rest"));
        *match (warned, restless(&mut pack)) {
            (true, 0) => &mut wrong,
            (true, _) => &mut right,
            (false, 0) => &mut resting,
            (false, _) => &mut missed,
        } += 1;
    }
    assert!(right > 500 && resting > 200, "{right} {resting}");
    assert!(wrong + missed < 10, "{wrong} {missed}");
}

/// The market's trigger as document 001 has it goes one belief deeper in each round; the one of the example doesn't.
#[test]
fn one_belief_deeper() {
    let market = include_str!("../../../examples/market.story");
    let seen = "     and the stalls are seen and Tom believes the stalls are seen\n";
    let literal = market.replacen(" and the stalls are unseen\n    then", "\n    then", 1).replacen(seen, "", 1);
    let restless = |text: &str| {
        let Reading { story, warnings } = reading(text);
        let pack = pack::read(&story.bytes()).unwrap();
        let gives = step(&pack, &State::new(&pack.nodes, 0), 0).err();
        (warnings.iter().any(|warning| warning.message.contains("may never rest")), gives)
    };
    assert_eq!(restless(market), (false, None));
    assert_eq!(restless(&literal), (true, Some(ROUNDS)));
}
