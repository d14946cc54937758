//! `check`: what is wrong with a story, and whether the planner finds in its pack what its text states.

use std::collections::HashSet;

use pirwodd::{Character, Fluent, Planner};
use story::print::belief;
use story::{Names, Stated, Story};

use crate::again;
use crate::open::{name, open, Opened};
use crate::said::{Refused, Said};

pub fn check(file: &str) -> Result<Said, Refused> {
    let Opened { stage, warnings, text } = open(file)?;
    let said = asked_back(file, stage.names(), &stage.pack, &stated(&stage.story, &text))?;
    Ok(Said { err: warnings, ..said })
}

/// The beliefs that a text states, each once: as the reader of stories has them, and as the words alone have them.
pub fn stated(story: &Story, text: &str) -> Vec<Stated> {
    let mut stated = story.stated();
    let known: HashSet<_> = stated.iter().map(key).collect();
    stated.extend(again::stated(text, &story.names).into_iter().filter(|belief| !known.contains(&key(belief))));
    stated
}

fn key(belief: &Stated) -> (Vec<usize>, usize, usize) {
    (belief.chain.clone(), belief.fluent, belief.value)
}

/// Asks a pack for every belief that a text states, on the chart that Start gives. The two are handed in apart, so that
/// nothing of the one is taken for the other.
pub fn asked_back(file: &str, names: &Names, pack: &[u8], stated: &[Stated]) -> Result<Said, Refused> {
    let file = name(file);
    let mut planner = Planner::new();
    let start = planner.start(pack)?;
    let mut wrong = String::new();
    for Stated { chain, fluent, value, at } in stated {
        let characters: Vec<Character> = chain.iter().map(|&who| Character(who as u8)).collect();
        let found = planner.query(pack, &start, &characters, Fluent(*fluent as u8))?.into();
        if found != *value {
            let [text, pack] = [*value, found].map(|value| belief(names, chain, *fluent, value));
            wrong += &format!("{file}:{at}: error: the text says '{text}', and its pack says '{pack}'\n");
        }
    }
    if !wrong.is_empty() {
        return Err(Refused(wrong + "That is a mistake of this program, and not of the story.\n"));
    }
    Ok(Said::answer(format!("{file}: in order; beliefs asked back: {}\n", stated.len())))
}
