//! Makes plain Rust of the proved sources, as private modules of this crate: see `rust/strip`.

#[path = "rust/strip/crates.rs"]
mod crates;
#[path = "rust/strip/mod.rs"]
mod strip;

use crates::{Crate, modules, with_those_below};
use std::env;
use std::path::PathBuf;
use std::process::ExitCode;

/// The crate of the library whose functions this crate calls. With those below it, it is the
/// library.
const TOP: &str = "bitvec_call";

/// What this crate calls besides, where the feature that is named is on: each call's condition is
/// tested before it.
const BESIDES: [(&str, Option<&str>); 2] = [
    ("freemap", None),
    ("bitvec_vec", Some("CARGO_FEATURE_ALLOC")),
];

/// The crates that are stripped for no test: what times, and the exports for C.
const LEFT_OUT: [&str; 2] = ["bench", "bitvec_c"];

fn main() -> ExitCode {
    match make() {
        Ok(()) => ExitCode::SUCCESS,
        Err(fault) => {
            eprintln!("{fault}");
            ExitCode::FAILURE
        }
    }
}

fn make() -> Result<(), String> {
    let folder_of = |name: &str| {
        env::var_os(name)
            .map(PathBuf::from)
            .ok_or(format!("{name} is not set"))
    };
    let (package, out) = (
        folder_of("CARGO_MANIFEST_DIR")?,
        folder_of("OUT_DIR")?.join("proved"),
    );
    // (the list is at the top, which is the package's folder, but for `rust/serde`)
    let mut above = package.ancestors();
    let here = above.find(|folder| folder.join("crates.txt").exists());
    let here = here.ok_or("there is no crates.txt")?;
    for read in ["build.rs", "rust/strip", "crates.txt"] {
        println!("cargo::rerun-if-changed={}", here.join(read).display());
    }
    let crates = crates::listed(here)?;
    let mut library = with_those_below(TOP, &crates);
    for (name, feature) in BESIDES {
        if feature.is_none_or(|it| env::var_os(it).is_some()) {
            library.extend(with_those_below(name, &crates));
        }
    }
    let here = here.join("crates");
    // A package has the library alone: what asks it is compiled for the tests, where it is there.
    let is_here =
        |it: &&Crate| !LEFT_OUT.contains(&it.name.as_str()) && here.join(&it.name).exists();
    let (library, asking): (Vec<&Crate>, Vec<&Crate>) = crates
        .iter()
        .filter(is_here)
        .partition(|it| library.contains(it.name.as_str()));
    let nothing = |_: &str, _: &str| Ok(String::new());
    modules(&here, &out, &library, "library.rs", nothing)?;
    modules(&here, &out, &asking, "asking.rs", nothing)
}
