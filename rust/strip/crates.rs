//! The crates of the library as modules of one crate: what the builds of the Rust crate and of the
//! library for C have in common.

use crate::strip::{Way, strip};
use std::collections::HashSet;
use std::fmt::Write as _;
use std::path::Path;
use std::{fs, io};

/// What is not told of made code: what the sources import for their contracts alone, or offer and
/// this crate does not call, a function that they hand back and let go, and how their authors write. What the oldest compiler lacks is told.
const ALLOWED: &str =
    "#[allow(dead_code, unused_braces, unused_imports, unused_must_use, unused_variables)]
#[allow(clippy::all, clippy::pedantic)]
#[warn(clippy::incompatible_msrv)]";

/// A crate, and the crates that it uses, by the list `crates.txt`.
pub struct Crate {
    /// Its name.
    pub name: String,
    /// The names of those that it uses.
    pub uses: Vec<String>,
}

/// The crates of the list in a folder.
pub fn listed(top: &Path) -> Result<Vec<Crate>, String> {
    let list =
        fs::read_to_string(top.join("crates.txt")).map_err(|e| format!("crates.txt: {e}"))?;
    Ok(list.lines().filter_map(crate_of).collect())
}

/// The crate that a line of the list names.
fn crate_of(line: &str) -> Option<Crate> {
    let (name, uses) = line.split('#').next()?.split_once(':')?;
    let name = name.split_whitespace().next()?.to_owned();
    Some(Crate {
        name,
        uses: uses.split_whitespace().map(str::to_owned).collect(),
    })
}

/// The names of a crate and of all that it stands on.
pub fn with_those_below<'a>(name: &'a str, crates: &'a [Crate]) -> HashSet<&'a str> {
    let uses = crates
        .iter()
        .filter(|it| it.name == name)
        .flat_map(|it| &it.uses);
    uses.flat_map(|below| with_those_below(below, crates))
        .chain([name])
        .collect()
}

/// Makes the modules of some crates, whose folders lie in one, and the file that declares them.
/// Behind each file stands what is answered for its source and for what is made of that.
pub fn modules(
    here: &Path,
    out: &Path,
    crates: &[&Crate],
    list: &str,
    behind: impl Fn(&str, &str) -> Result<String, String>,
) -> Result<(), String> {
    let mut text = String::new();
    for Crate { name, uses } in crates {
        let way = Way {
            uses,
            own: name,
            root: "crate::proved",
        };
        let (from, to) = (here.join(name).join("src"), out.join(name));
        println!("cargo::rerun-if-changed={}", from.display());
        folder(&from, &to, &way, &behind)?;
        let is_program = from.join("main.rt").exists();
        let root = to.join(if is_program { "main.rs" } else { "lib.rs" });
        let path = root.display().to_string();
        let _ = writeln!(
            text,
            "{ALLOWED}\n#[path = {path:?}]\npub(crate) mod {name};"
        );
    }
    fs::write(out.join(list), text).map_err(|e| format!("{list}: {e}"))
}

/// Strips the sources of a folder.
fn folder(
    from: &Path,
    to: &Path,
    way: &Way,
    behind: &impl Fn(&str, &str) -> Result<String, String>,
) -> Result<(), String> {
    let at = |e: io::Error| format!("{}: {e}", from.display());
    fs::create_dir_all(to).map_err(at)?;
    for entry in fs::read_dir(from).map_err(at)? {
        let path = entry.map_err(at)?.path();
        let Some(name) = path.file_name() else {
            continue;
        };
        if path.is_dir() {
            folder(&path, &to.join(name), way, behind)?;
        } else if path.extension().is_some_and(|extension| extension == "rt") {
            let source = fs::read_to_string(&path).map_err(at)?;
            let plain =
                strip(&source, way).map_err(|fault| format!("{}:{fault}", path.display()))?;
            let behind =
                behind(&source, &plain).map_err(|fault| format!("{}: {fault}", path.display()))?;
            let plain = format!("use crate::proved::shim::prelude::*; {plain}{behind}");
            fs::write(to.join(name).with_extension("rs"), plain).map_err(at)?;
        }
    }
    Ok(())
}
