//! A folder of its own, in which a script of the repository is run with stand-ins for its tools.

use audit::repository;
use std::fs;
use std::os::unix::fs::{symlink, PermissionsExt};
use std::path::{Path, PathBuf};
use std::process::{Command, Output};

pub struct Folder(pub PathBuf);

impl Folder {
    /// A folder with a copy of the script, in which these tools alone are found.
    pub fn new(name: &str, script: &str, tools: &[&str]) -> Folder {
        let folder = Folder(std::env::temp_dir().join(format!("{name}-{}", std::process::id())));
        fs::create_dir_all(folder.0.join("bin")).expect("a folder");
        tools.iter().for_each(|tool| symlink(found(tool), folder.0.join("bin").join(tool)).expect(tool));
        folder.copy(script);
        folder
    }

    pub fn say(&self, file: &str, text: &str) -> &Folder {
        let path = self.0.join(file);
        fs::create_dir_all(path.parent().expect("a folder")).expect("a folder");
        fs::write(path, text).expect(file);
        self
    }

    pub fn copy(&self, file: &str) -> &Folder {
        let from = repository().join(file);
        self.say(file, &fs::read_to_string(&from).expect(file));
        fs::set_permissions(self.0.join(file), fs::metadata(from).expect(file).permissions()).expect(file);
        self
    }

    pub fn stand_in(&self, tool: &str, text: &str) -> &Folder {
        self.say(&format!("bin/{tool}"), text);
        let path = self.0.join("bin").join(tool);
        fs::set_permissions(path, fs::Permissions::from_mode(0o755)).expect(tool);
        self
    }

    /// Takes a tool away.
    pub fn without(&self, tool: &str) -> &Folder {
        fs::remove_file(self.0.join("bin").join(tool)).expect(tool);
        self
    }

    /// Runs the script, handed some words.
    pub fn run(&self, script: &str, words: &[&str]) -> Output {
        let bin = self.0.join("bin");
        let mut bash = Command::new(bin.join("bash"));
        bash.arg(self.0.join(script)).args(words).current_dir(&self.0).env("PATH", &bin);
        bash.output().expect("bash")
    }
}

impl Drop for Folder {
    fn drop(&mut self) {
        let _ = fs::remove_dir_all(&self.0);
    }
}

/// Where a command stands.
fn found(tool: &str) -> PathBuf {
    let path = std::env::var_os("PATH").expect("a path");
    let mut places = std::env::split_paths(&path).map(|folder| folder.join(tool));
    places.find(|place| Path::is_file(place)).unwrap_or_else(|| panic!("no {tool}"))
}
