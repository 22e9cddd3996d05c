//! Writes the module lines that compile the original's files from where they are, unmodified.

use std::{env, fmt::Write, fs, path::PathBuf};

/// The original's files, by their module names.
const MODULES: [&str; 8] =
    ["comment", "kind", "search", "source", "token", "trivia_builder", "unicode", "whitespace"];

fn main() {
    println!("cargo::rerun-if-env-changed=ORIGINAL");
    let folder = env::var("ORIGINAL").expect("ORIGINAL must name the folder src/lexer of oxc_parser 0.156.0");
    let folder = fs::canonicalize(&folder).unwrap_or_else(|error| panic!("ORIGINAL={folder}: {error}"));

    let mut lines = String::new();
    for module in MODULES {
        let file = folder.join(format!("{module}.rs"));
        assert!(file.is_file(), "{} is not there", file.display());
        println!("cargo::rerun-if-changed={}", file.display());
        // Much of the original is not reached from here, and a stand-in may leave an `unsafe` without need.
        writeln!(lines, "#[allow(dead_code, unused_unsafe)]\n#[path = {file:?}]\nmod {module};").unwrap();
    }
    let out = PathBuf::from(env::var("OUT_DIR").unwrap()).join("original.rs");
    fs::write(out, lines).unwrap();
}
