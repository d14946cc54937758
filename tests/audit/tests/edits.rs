//! Every must-fail edit fits the sources and stands where the gate tries it.

use audit::{edits, repository};
use std::fs;
use std::os::unix::fs::PermissionsExt;
use std::path::PathBuf;

#[test]
fn every_edit_fits() {
    assert_eq!(edits::misfits(&repository()).expect("the edits"), Vec::<String>::new());
}

/// A folder with these files, gone when it is dropped.
struct Room(PathBuf);

impl Room {
    fn new(name: &str, files: &[(&str, &str)]) -> Room {
        let room = Room(std::env::temp_dir().join(format!("edits-{}-{name}", std::process::id())));
        for (file, text) in files {
            let path = room.0.join(file);
            fs::create_dir_all(path.parent().expect("a folder")).expect("a folder");
            fs::write(&path, text).expect(file);
            fs::set_permissions(&path, fs::Permissions::from_mode(0o755)).expect(file);
        }
        room
    }
}

impl Drop for Room {
    fn drop(&mut self) {
        let _ = fs::remove_dir_all(&self.0);
    }
}

#[test]
fn an_edit_that_does_not_fit_is_found() {
    let room = Room::new("fit", &[("src/a.rt", "one two two\n")]);
    let edit = |pairs: &str| edits::fits(&room.0, &format!("# why\nfile: src/a.rt\n{pairs}"));
    assert_eq!(edit("old: one\nnew: three\nold: three two\nnew:\n"), Ok(()));
    assert!(edit("old: four\nnew: x\n").expect_err("not there").contains("0 times"));
    assert!(edit("old: two\nnew: x\n").expect_err("too often").contains("2 times"));
    assert!(edit("old: one\nnew: x\nold: one\nnew: y\n").expect_err("it is gone").contains("0 times"));
    assert!(edit("").expect_err("no pair").contains("nothing"));
    assert!(edits::fits(&room.0, "file: src/b.rt\nold: one\nnew: x\n").is_err(), "no such file");
}

/// An edit that the gate would not try is an error.
#[test]
fn edits_outside_the_gate_are_found() {
    let file = |path: &str| Room::new("outside", &[("crates/a/must-fail/in.edit", ""), (path, "")]);
    let room = file("crates/a/must-fail/also.edit");
    let mut there = edits::names(&room.0, "a").expect("edits");
    there.sort();
    assert_eq!(there, ["a/also", "a/in"]);
    drop(room);
    assert!(edits::names(&file("crates/a/must-fail/more/out.edit").0, "a").is_err());
}
