//! Links the proved library, which `./archives pirwodd` builds, and says so where it is missing.

use std::path::PathBuf;
use std::{env, process};

fn main() {
    let here = PathBuf::from(env::var_os("CARGO_MANIFEST_DIR").expect("cargo names the package's folder"));
    let folder = here.join("../../target/staticlib");
    let archive = folder.join("libpirwodd.a");
    println!("cargo:rerun-if-changed={}", archive.display());
    if !archive.is_file() {
        eprintln!("The proved library is not built: there is no {}.", archive.display());
        eprintln!("Run `./archives pirwodd` in the repository's folder first.");
        process::exit(1);
    }
    println!("cargo:rustc-link-search=native={}", folder.display());
    println!("cargo:rustc-link-lib=static=pirwodd");
}
