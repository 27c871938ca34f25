//! Takes the tests and the examples of other crates of bits from where Debian puts their sources
//! (`librust-bit-vec-dev` and so on). A crate that is not there is passed over. Nothing of theirs
//! is kept: what is made here lies in Cargo's folder of this build.

use std::fmt::Write as _;
use std::path::{Path, PathBuf};
use std::{env, fs};

/// Where Debian puts sources of Rust.
const REGISTRY: &str = "/usr/share/cargo/registry";

/// A crate: its name in Rust, how its folder begins, and the file of its tests.
const PEERS: [(&str, &str, &str); 3] = [
    ("bit_vec", "bit-vec-0.6", "src/lib.rs"),
    ("fixedbitset", "fixedbitset-0.4", "src/lib.rs"),
    ("smallbitvec", "smallbitvec-2", "src/tests.rs"),
];

/// The tests that mean nothing here, and why.
const IGNORED: [(&str, &str, &str); 4] = [
    ("smallbitvec", "test_inline_capacity", NO_INLINE),
    ("smallbitvec", "new", NO_INLINE),
    ("smallbitvec", "with_capacity_inline", NO_INLINE),
    ("smallbitvec", "with_capacity_heap", NO_INLINE),
];

const NO_INLINE: &str = "a vector keeps no bits in itself: a `BitArray` does";

fn main() {
    println!("cargo::rerun-if-changed=build.rs");
    println!("cargo::rerun-if-changed={REGISTRY}");
    let out = PathBuf::from(env::var_os("OUT_DIR").expect("Cargo names the folder"));
    for (name, begins, tests) in PEERS {
        println!("cargo::rustc-check-cfg=cfg({name})");
        let Some(folder) = folder_of(begins) else {
            println!("cargo::warning={begins} is not there: its tests are passed over");
            continue;
        };
        let text = |file: &str| fs::read_to_string(folder.join(file)).expect("its source is text");
        let tests = tests_of(name, &text(tests));
        fs::write(out.join(format!("{name}.rs")), tests).expect("the folder can be written");
        let examples = examples_of(name, &text("src/lib.rs"));
        fs::write(out.join(format!("{name}_examples.rs")), examples)
            .expect("the folder can be written");
        println!("cargo::rustc-cfg={name}");
    }
}

/// The folder of a crate.
fn folder_of(begins: &str) -> Option<PathBuf> {
    let folders = fs::read_dir(Path::new(REGISTRY)).ok()?;
    let paths = folders.filter_map(|entry| Some(entry.ok()?.path()));
    paths.into_iter().find(|path| {
        let name = path.file_name().and_then(|name| name.to_str());
        name.is_some_and(|name| name.starts_with(begins))
    })
}

/// The tests of a source: what its module of tests has, or all from the first test on, or all.
fn tests_of(name: &str, text: &str) -> String {
    let tests = match (text.split_once("mod tests {"), text.find("\n#[test]")) {
        (Some((_, tests)), _) => tests.trim_end().strip_suffix('}').unwrap_or(tests),
        (_, Some(from)) if text.contains("pub fn") => &text[from..],
        _ => text,
    };
    let mut tests = tests.to_owned();
    for (_, test, why) in IGNORED.iter().filter(|it| it.0 == name) {
        let head = format!("fn {test}()");
        tests = tests.replace(&head, &format!("#[ignore = {why:?}]\n{head}"));
    }
    tests
}

/// The examples in a source's documentation, each as a test that has the number of its line.
fn examples_of(name: &str, text: &str) -> String {
    let mut made = format!("use crate::{name}::*;\n#[allow(unused_imports)]\nuse crate::{name};\n");
    let mut example: Option<(usize, String)> = None;
    for (number, line) in text.lines().enumerate() {
        let line = line.trim_start();
        let Some(line) = line.strip_prefix("///").or(line.strip_prefix("//!")) else {
            continue;
        };
        let line = line.strip_prefix(' ').unwrap_or(line);
        if !line.starts_with("```") {
            if let Some((_, lines)) = &mut example {
                let line = line.strip_prefix("# ").unwrap_or(line);
                if !line.contains("extern crate") && !line.trim_start().starts_with("///") {
                    let _ = writeln!(lines, "{line}");
                }
            }
            continue;
        }
        example = match example.take() {
            None => Some((number + 1, String::new())),
            Some((begun, lines)) => {
                let call = if lines.contains("fn main()") {
                    "main();"
                } else {
                    ""
                };
                let _ = writeln!(made, "#[test]\nfn example_{begun}() {{\n{lines}{call}\n}}");
                None
            }
        };
    }
    made
}
