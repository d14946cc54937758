//! Links the proved library, which `./archives` builds, and says so where it is missing.

use std::path::PathBuf;
use std::{env, process};

/// The archives: the calls, and the reader of packs and charts by itself.
const ARCHIVES: [&str; 2] = ["pirwodd", "probe"];

fn main() {
    let here = PathBuf::from(env::var_os("CARGO_MANIFEST_DIR").expect("cargo names the package's folder"));
    let folder = here.join("../../target/staticlib");
    println!("cargo:rustc-link-search=native={}", folder.display());
    for name in ARCHIVES {
        let archive = folder.join(format!("lib{name}.a"));
        println!("cargo:rerun-if-changed={}", archive.display());
        if !archive.is_file() {
            eprintln!("The proved library is not built: there is no {}.", archive.display());
            eprintln!("Run `./archives {name}` in the repository's folder first.");
            process::exit(1);
        }
        println!("cargo:rustc-link-lib=static={name}");
    }
}
