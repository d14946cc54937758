//! What the pages of `examples/` say of variants of their stories: a line changed, or a limit.

use reference::calls::search_pack;
use reference::ending::{lines, FORESIGHT, NESTING, STORY};
use reference::generate::draft;
use reference::happening::step;
use reference::implementation::Implementation;
use reference::pack::{self, Pack};
use reference::planner::Planner;
use reference::refusal::{CONDITION, ROUNDS};
use reference::state::State;
use reference::tuned::Engine;
use reference::{chart, text};
use story::read;

const LETTER: &str = include_str!("../../../examples/letter.story");
const ALICE: &str = include_str!("../../../examples/alice.story");
const SHOES: &str = include_str!("../../../examples/shoes.story");
const MARKET: &str = include_str!("../../../examples/market.story");
const LIE: &str = include_str!("../../../examples/lie.story");
const SAFE: &str = include_str!("../../../examples/safe.story");
const NECKLACE: &str = include_str!("../../../examples/necklace.story");
const WILL: &str = include_str!("../../../examples/will.story");
const THORNBY: &str = include_str!("../../../examples/thornby.story");
const WILL_PAGE: &str = include_str!("../../../examples/will.md");

/// How the stories of one view begin: nobody is mistaken.
const EVERYONE: &str = "    everyone believes this\n";

const NONE: &str = "refused 13 at 0\n";

/// The story with texts put in place of others, each of which stands there exactly once.
fn changed(story: &str, changes: &[(&str, &str)]) -> Pack {
    let mut story = story.to_string();
    for (before, after) in changes {
        assert_eq!(story.matches(before).count(), 1, "{before}");
        story = story.replace(before, after);
    }
    let reading = read(story.as_bytes()).unwrap_or_else(|problems| panic!("{problems:?}\n{story}"));
    pack::read(&reading.story.bytes()).unwrap()
}

/// What `ending` would print under these limits.
fn under(story: &Pack, (most, foresight, nesting): (usize, usize, usize)) -> String {
    let found = search_pack(story, most, foresight, nesting);
    let found = found.as_ref().map(|ending| (&ending.actions[..], ending.before, ending.after));
    lines(found.map_err(|refusal| *refusal))
}

fn ends(story: &str, changes: &[(&str, &str)]) -> String {
    under(&changed(story, changes), (STORY, FORESIGHT, NESTING))
}

/// The same for the large stories, by the tuned form: the actions, or nothing.
fn found(story: &Pack, (most, foresight, nesting): (u64, u64, u64)) -> Vec<u8> {
    let (mut list, mut work) = ([0; 8], vec![0; 49_152]);
    let found = Engine::new().search(&draft::bytes(story), most, foresight, nesting, &mut list, &mut work);
    list[..found.map_or(0, |found| found.length)].to_vec()
}

/// The text of an action, from its heading to the next one.
fn action<'a>(story: &'a str, title: &str) -> &'a str {
    let first = story.find(&format!("action {title}:")).unwrap();
    let length = story[first + 1..].find("\naction ").unwrap() + 2;
    &story[first..first + length]
}

/// The state after some actions.
fn state(story: &Pack, actions: &[usize]) -> State {
    let start = State::new(&story.nodes, 0);
    actions.iter().fold(start, |state, &action| step(story, &state, action).unwrap())
}

/// Its chart, in hexadecimal.
fn after(story: &Pack, actions: &[usize]) -> String {
    text::hex(&chart::write(&state(story, actions)))
}

/// Whether an action after some others is explained to a character, under a foresight and a nesting limit.
fn explained(story: &Pack, actions: &[usize], action: usize, character: usize, limits: (usize, usize)) -> bool {
    let (foresight, nesting) = limits;
    Planner::new(story, foresight).explained(character, action, &state(story, actions), nesting)
}

#[test]
fn letter() {
    let story = changed(LETTER, &[]);
    assert_eq!(under(&story, (4, 3, 1)), "1 0\n2 1\n3 2\nauthor 0 5\n");
    assert_eq!(under(&story, (4, 2, 2)), NONE);
    assert!(explained(&story, &[], 0, 0, (1, 1)), "Ada moves the letter for its own sake");
    assert!(explained(&story, &[0], 1, 1, (3, 1)) && !explained(&story, &[0], 1, 1, (2, 3)), "he comes home for three");
    assert!(explained(&story, &[0, 1], 2, 1, (2, 1)) && !explained(&story, &[0, 1], 2, 1, (1, 3)));
    assert_eq!(step(&story, &state(&story, &[0, 1, 2]), 3), Err(CONDITION), "the letter isn't in the desk");
    let at_home = ("    the cousin is out\n", "    the cousin is in the house\n");
    assert_eq!(ends(LETTER, &[at_home]), NONE);
    assert_eq!(ends(LETTER, &[("seen by the cousin if the cousin is in the house", "seen by the cousin")]), NONE);
    let moved = (
        "    the letter is in the desk\n    the desk is locked",
        "    the letter is in the drawer\n    the desk is locked",
    );
    assert_eq!(ends(LETTER, &[moved]), NONE);
    let view = (
        EVERYONE,
        "    everyone else believes this\nwhat the cousin believes:\n the letter is in the desk\n \
                           the rest is as in the truth\n everyone believes this\n",
    );
    assert_eq!(ends(LETTER, &[moved, view]), "1 1\n2 2\nauthor 0 5\n");
}

#[test]
fn alice() {
    let story = changed(ALICE, &[]);
    assert_eq!(after(&story, &[]), "02000101020101000202020202");
    assert_eq!(after(&story, &[0]), "02000001020101000002020202");
    assert_eq!(after(&story, &[0, 1]), "01000000010101");
    assert_eq!(after(&story, &[1, 0]), "01000000010101");
    let start = state(&story, &[]);
    assert_eq!(
        start.follow(0, &[1, 2, 0]).values[1],
        2,
        "Bob believes Charlie believes Alice believes Bob is at the store"
    );
    let secret =
        [("    by Bob\n    seen by everyone", "    by Bob\n    seen by Bob and Charlie\n    seen by nobody else")];
    assert_eq!(ends(ALICE, &secret), NONE);
}

#[test]
fn shoes() {
    let story = changed(SHOES, &[]);
    assert!(explained(&story, &[], 0, 0, (2, 1)) && !explained(&story, &[], 0, 0, (1, 3)), "going is for buying");
    assert_eq!(after(&story, &[0]), "040202000203020100020401020003030001000404");
    assert_eq!(under(&story, (4, 1, 2)), NONE);
    assert_eq!(under(&story, (4, 2, 1)), "1 0\n2 1\nauthor 0 5\n");
    assert_eq!(ends(SHOES, &[("    the mom is at the party\n", "    the mom is at the mall\n")]), NONE);
    assert_eq!(ends(SHOES, &[("    the mom is at the party\n", "    the mom is at home\n")]), NONE);
    let at_the_mall = [("    the mom is at work\n", "    the mom is at the mall\n")];
    assert_eq!(ends(SHOES, &at_the_mall), "1 0\n2 1\nauthor 0 5\n");
}

#[test]
fn market() {
    let sees = MARKET.find("trigger").unwrap()..MARKET.find("author wants").unwrap();
    let without = changed(MARKET, &[(&MARKET[sees], "")]);
    assert_eq!(under(&without, (4, 3, 2)), NONE);
    assert_eq!(under(&without, (8, 6, 3)), NONE);
    let literal = changed(
        MARKET,
        &[
            (" and the stalls are unseen\n    then", "\n    then"),
            ("     and the stalls are seen and Tom believes the stalls are seen\n", ""),
        ],
    );
    assert_eq!(step(&literal, &state(&literal, &[]), 0), Err(ROUNDS));
    assert_eq!(under(&literal, (4, 3, 2)), NONE);
    let found = "1 0\n2 2\nauthor 0 5\n";
    let knows =
        ("    the merchant is at the cottage\n    the merchant's wealth is 2", "    the merchant's wealth is 2");
    let only_the_potion = ("    1 if Tom is at the market\n", "");
    assert_eq!(ends(MARKET, &[only_the_potion]), NONE);
    assert_eq!(ends(MARKET, &[only_the_potion, knows]), found);
    assert_eq!(ends(MARKET, &[("    2 if the takings are at least 1\n", "    nothing\n")]), NONE);
    assert_eq!(under(&changed(MARKET, &[]), (2, 1, 1)), found);
    let sees_tom = "    seen by the merchant if the merchant is at the cottage or the merchant is at the market\n";
    let arrives = "    then Tom is at the market\n    by Tom\n    seen by Tom\n";
    assert_eq!(
        ends(MARKET, &[(&format!("{arrives}{sees_tom}"), &format!("{arrives}    seen by nobody else\n"))]),
        NONE
    );
}

#[test]
fn lie() {
    let story = changed(LIE, &[]);
    let found = "1 0\n2 1\n3 3\nauthor 0 5\n";
    assert!(explained(&story, &[], 0, 0, (3, 2)) && !explained(&story, &[], 0, 0, (6, 1)), "the lie is for two heads");
    assert!(explained(&story, &[0], 1, 1, (2, 1)) && !explained(&story, &[0], 1, 1, (1, 3)), "he goes to dig");
    assert!(!explained(&story, &[], 1, 1, (6, 3)), "nobody has said anything");
    assert_eq!(after(&story, &[0]), "0200000001020100000102");
    assert_eq!(under(&story, (4, 3, 1)), NONE);
    assert_eq!(under(&story, (8, 6, 1)), NONE);
    assert_eq!(under(&story, (3, 3, 2)), found);
    assert_eq!(under(&story, (4, 2, 2)), NONE);
    let silent = LIE.find("action the heir says").unwrap()..LIE.find("action the butler goes").unwrap();
    assert_eq!(ends(LIE, &[(&LIE[silent], "")]), NONE);
    let stroll = changed(
        LIE,
        &[(
            "    2 if the will is with the butler\n",
            "    2 if the will is with the butler\n    1 if the butler is in the garden\n",
        )],
    );
    assert_eq!(under(&stroll, (4, 3, 1)), "1 1\n2 3\nauthor 0 5\n");
    let mistaken = (
        EVERYONE,
        "    everyone else believes this\nwhat the heir believes:\n \
                               the butler is in the garden\n the rest is as in the truth\n everyone believes this\n",
    );
    assert_eq!(ends(LIE, &[mistaken]), NONE);
    let careless = [("    2 if the will is with the butler\n", "    2 if the will is in the garden\n")];
    assert_eq!(ends(LIE, &careless), NONE);
}

#[test]
fn safe() {
    let story = changed(SAFE, &[]);
    assert_eq!(under(&story, (4, 6, 3)), NONE);
    assert_eq!(under(&story, (5, 2, 1)), under(&story, (5, 3, 2)));
    assert_eq!(under(&story, (5, 3, 2)), "1 0\n2 1\n3 2\n4 3\n5 4\nauthor 0 5\n");
    let stairs = "action the inspector takes the back stairs:\n when the inspector is in the library\n \
                  then the inspector is in the study\n by the inspector\n seen by everyone\nauthor wants:\n";
    assert_eq!(ends(SAFE, &[("author wants:\n", stairs)]), "1 0\n2 1\n3 5\n4 4\nauthor 0 5\n");
    let with_key = (
        "    the key is in the library\n    the safe is shut",
        "    the key is with the inspector\n    the safe is shut",
    );
    assert_eq!(ends(SAFE, &[with_key]), "1 0\n2 2\n3 3\n4 4\nauthor 0 5\n");
    let pride = SAFE.find("    2 if").unwrap()..;
    let no_pride = changed(SAFE, &[(&SAFE[pride], "")]);
    assert_eq!(under(&no_pride, (5, 3, 2)), NONE);
    assert_eq!(under(&no_pride, (5, 4, 2)), NONE);
    assert_eq!(under(&no_pride, (5, 5, 2)), "1 0\n2 1\n3 2\n4 3\n5 4\nauthor 0 5\n");
}

/// The largest limits.
const WIDEST: (u64, u64, u64) = (8, 6, 3);

#[test]
fn necklace() {
    let story = changed(NECKLACE, &[]);
    let told = [0, 4, 6, 8, 9, 10, 11];
    assert_eq!(found(&story, WIDEST), told);
    assert_eq!(found(&story, (7, 6, 3)), told);
    assert!(found(&story, (6, 6, 3)).is_empty() && found(&story, (8, 5, 3)).is_empty());
    assert_eq!(found(&story, (8, 6, 2)), [4, 0, 6, 8, 9, 10, 11]);
    assert!(found(&story, (8, 6, 1)).is_empty());
    let knows = ("    the stones are real\n    the rest", "    the stones are paste\n    the rest");
    assert!(found(&changed(NECKLACE, &[knows]), WIDEST).is_empty());
    let key = (
        "    the key is with Lady Merrow\n    the party is at cards",
        "    the key is on the piano\n    the party is at cards",
    );
    assert_eq!(found(&changed(NECKLACE, &[knows, key]), WIDEST), [1, 4, 6, 8, 9, 10, 11]);
    let dark = ("    the lamps are lit\n    the inspector", "    the lamps are out\n    the inspector");
    assert_eq!(found(&changed(NECKLACE, &[dark]), WIDEST), [0, 4, 14, 6, 8, 9, 10, 11]);
    let blind = ("    seen by Lady Merrow if the lamps are lit\n", "");
    assert!(found(&changed(NECKLACE, &[blind]), WIDEST).is_empty());
    let ring = action(NECKLACE, "the doctor gives Miss Finch the ring");
    assert!(found(&changed(NECKLACE, &[(ring, "")]), WIDEST).is_empty());
}

#[test]
fn will() {
    let story = changed(WILL, &[]);
    assert!(found(&story, WIDEST).is_empty());
    let first = WILL_PAGE.find("    action the solicitor drives").unwrap();
    let drive: String = WILL_PAGE[first..].lines().take(5).map(|line| format!("{line}\n")).collect();
    let drives = ("author wants:\n", format!("{drive}author wants:\n"));
    let drives = (drives.0, drives.1.as_str());
    let story = changed(WILL, &[drives]);
    assert_eq!(found(&story, WIDEST), [0, 3, 6, 8, 9, 11, 18, 12]);
    assert_eq!(found(&story, (8, 6, 2)), [0, 3, 8, 9, 11, 18, 6, 12]);
    assert_eq!(found(&story, (8, 3, 2)), [0, 3, 8, 9, 11, 18, 6, 12]);
    assert!(found(&story, (8, 6, 1)).is_empty());
    let lie = action(WILL, "the housekeeper says that the horse is running");
    assert!(found(&changed(WILL, &[drives, (lie, "")]), WIDEST).is_empty());
    let awake = (
        "    Lord Ashby is asleep\n    the solicitor is in London",
        "    Lord Ashby is awake\n    the solicitor is in London",
    );
    assert_eq!(found(&changed(WILL, &[awake]), WIDEST), [0, 1, 2, 6, 8, 9, 11, 12]);
    let anywhere = ("    7 if the will is signed and the nephew is at the races", "    7 if the will is signed");
    assert!(found(&changed(WILL, &[anywhere]), WIDEST).is_empty());
}

/// The ending that the page of the will tells in words is that of the story with one more act.
#[test]
fn one_act_more() {
    let first = WILL_PAGE.find("    action the solicitor drives").unwrap();
    let drive: String = WILL_PAGE[first..].lines().take(5).map(|line| format!("{line}\n")).collect();
    let text = WILL.replace("author wants:\n", &format!("{drive}author wants:\n"));
    let story = read(text.as_bytes()).unwrap().story;
    let list = found(&pack::read(&story.bytes()).unwrap(), WIDEST);
    let mut quoted = String::new();
    for (i, &action) in list.iter().enumerate() {
        quoted += &format!("    {}. {}\n", i + 1, story.names.actions[action as usize]);
    }
    assert!(WILL_PAGE.contains(&(quoted + "    The author goes from 0 to 7.\n")));
}

#[test]
fn thornby() {
    let story = changed(THORNBY, &[]);
    let told = [2, 3, 6, 8, 10, 11, 18, 17];
    assert_eq!(found(&story, WIDEST), told);
    assert_eq!(found(&story, (8, 2, 1)), told);
    assert!(found(&story, (7, 6, 3)).is_empty() && found(&story, (8, 1, 1)).is_empty());
    let chain = action(THORNBY, "the gardener chains the dog");
    assert!(found(&changed(THORNBY, &[(chain, "")]), WIDEST).is_empty());
}
