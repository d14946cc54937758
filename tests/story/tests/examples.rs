//! The stories of `examples/`: each gives its pack and its picture, and `ending` finds what its page says.

use std::fs::{read, read_dir, read_to_string};
use std::path::PathBuf;

use reference::call::{Ask, Call, Outcome};
use reference::ending::{ending, FORESIGHT, NESTING, STORY};
use reference::implementation::Implementation;
use reference::plain;
use reference::tuned::Engine;
use story::dot;

fn folder() -> PathBuf {
    [env!("CARGO_MANIFEST_DIR"), "..", "..", "examples"].iter().collect()
}

/// The names of the files with an ending.
fn names(ending: &str) -> Vec<String> {
    let files = read_dir(folder()).unwrap().map(|file| file.unwrap().file_name().into_string().unwrap());
    let pages = files.filter(|file| file != "README.md");
    let mut names: Vec<String> = pages.filter_map(|file| Some(file.strip_suffix(ending)?.to_string())).collect();
    names.sort();
    names
}

#[test]
fn every_story_has_all_its_files() {
    let stories = names(".story");
    assert!(stories.len() >= 10, "{stories:?}");
    for ending in [".pack", ".out", ".dot", ".md"] {
        assert_eq!(names(ending), stories, "{ending}");
    }
}

#[test]
fn every_story_gives_its_pack() {
    for name in names(".story") {
        let story = story::read(&read(folder().join(name.clone() + ".story")).unwrap()).unwrap().story;
        assert_eq!(story.bytes(), read(folder().join(name.clone() + ".pack")).unwrap(), "{name}");
        let picture = read_to_string(folder().join(name.clone() + ".dot")).unwrap();
        assert_eq!(dot::story(&story), picture, "{name}");
    }
}

/// What the stories are warned of: facts that are there to be believed, and that nothing looks at.
#[test]
fn warnings() {
    let mut told = Vec::new();
    for name in names(".story") {
        let reading = story::read(&read(folder().join(name.clone() + ".story")).unwrap()).unwrap();
        told.extend(reading.warnings.into_iter().map(|warning| format!("{name}: {}", warning.message)));
    }
    assert_eq!(told, ["alice: nothing looks at 'Alice'", "market: nothing looks at 'the merchant's wealth'"]);
}

/// The plain way gives up on the large ones.
#[test]
fn every_pack_has_its_ending() {
    let mut plainly = 0;
    for name in names(".pack") {
        let pack = read(folder().join(name.clone() + ".pack")).unwrap();
        let out = read_to_string(folder().join(name.clone() + ".out")).unwrap();
        assert_eq!(ending(&pack), out, "{name}");
        assert_eq!(Engine::new().ending(&pack), out, "{name}, the tuned form");
        assert_eq!(Engine::held(27 * 1_024).ending(&pack), out, "{name}, the tuned form with little memory");
        if let Some(answer) = plain::answer(&Call::new(pack, Ask::Ending)) {
            assert_eq!(answer.outcome, Outcome::Text(out), "{name}, the plain way");
            plainly += 1;
        }
    }
    assert!(plainly >= 7, "{plainly}");
}

/// The page of a story quotes what `ending` prints, so that it can't tell of another ending.
#[test]
fn every_page_quotes_its_ending() {
    for name in names(".md") {
        let page = read_to_string(folder().join(name.clone() + ".md")).unwrap();
        let out = read_to_string(folder().join(name.clone() + ".out")).unwrap();
        let quoted: String = out.lines().map(|line| format!("    {line}\n")).collect();
        assert!(page.contains(&quoted), "{name}");
    }
}

/// The pages that quote the ending in words quote what is found, with the names of the actions: under the limits of
/// `ending`, and on the pages of the large stories under the largest.
#[test]
fn pages_in_words() {
    let limits = [(STORY as u64, FORESIGHT as u64, NESTING as u64), (8, 6, 3)];
    for (name, (most, foresight, nesting)) in
        [("letter", limits[0]), ("lie", limits[0]), ("necklace", limits[1]), ("thornby", limits[1])]
    {
        let story = story::read(&read(folder().join(format!("{name}.story"))).unwrap()).unwrap().story;
        let (mut list, mut work) = ([0; 8], vec![0; 49_152]);
        let found = Engine::new().search(&story.bytes(), most, foresight, nesting, &mut list, &mut work).unwrap();
        let mut quoted = String::new();
        for (i, &action) in list[..found.length].iter().enumerate() {
            quoted += &format!("    {}. {}\n", i + 1, story.names.actions[action as usize]);
        }
        quoted += &format!("    The author goes from {} to {}.\n", found.before, found.after);
        assert!(read_to_string(folder().join(format!("{name}.md"))).unwrap().contains(&quoted), "{name}");
    }
}
