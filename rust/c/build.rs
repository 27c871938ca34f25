//! Makes plain Rust of the proved sources, see `../strip`, and writes behind each export the function
//! that C calls.

#[path = "../strip/crates.rs"]
mod crates;
#[path = "../strip/mod.rs"]
mod strip;

use std::env;
use std::fmt::Write as _;
use std::path::{Path, PathBuf};
use std::process::ExitCode;

/// The crate of the exports.
const TOP: &str = "bitvec_c";

/// What stands before an export.
const EXPORT: &str = "#[unsafe(no_mangle)]";

fn main() -> ExitCode {
    for read in ["build.rs", "../strip", "../../crates.txt"] {
        println!("cargo::rerun-if-changed={read}");
    }
    match make() {
        Ok(()) => ExitCode::SUCCESS,
        Err(fault) => {
            eprintln!("{fault}");
            ExitCode::FAILURE
        }
    }
}

fn make() -> Result<(), String> {
    let out = env::var_os("OUT_DIR").ok_or("OUT_DIR is not set")?;
    let here = Path::new(env!("CARGO_MANIFEST_DIR"));
    let top = here.ancestors().nth(2).ok_or("no folder above")?;
    let crates = crates::listed(top)?;
    let names = crates::with_those_below(TOP, &crates);
    let library: Vec<_> = crates
        .iter()
        .filter(|it| names.contains(it.name.as_str()))
        .collect();
    let (here, out) = (top.join("crates"), PathBuf::from(out).join("proved"));
    crates::modules(&here, &out, &library, "library.rs", for_c)
}

/// The functions that C calls, of the exports of a source.
fn for_c(source: &str, plain: &str) -> Result<String, String> {
    let mut text = String::new();
    for export in source.split(EXPORT).skip(1) {
        let name = export
            .split_once("fn ")
            .and_then(|(_, behind)| behind.split_once('('));
        let (name, _) = name.ok_or("an export without a name")?;
        let called = called(name, plain).ok_or(format!("the export {name} is not of this form"))?;
        let _ = writeln!(text, "{EXPORT} {called}");
    }
    if text.is_empty() {
        return Ok(text);
    }
    Ok(format!(
        "\n#[allow(unused_unsafe)]\nmod for_c {{\nuse super::*;\n{text}}}\n"
    ))
}

/// The function that C calls, of the export of this name.
fn called(name: &str, plain: &str) -> Option<String> {
    let (_, behind) = plain.split_once(&format!("fn {name}("))?;
    let (parameters, behind) = behind.split_once(')')?;
    let (answer, _) = behind.split_once('{')?;
    let (mut raw, mut own) = (String::new(), String::new());
    for parameter in parameters.split(',').map(str::trim) {
        if parameter.is_empty() {
            continue;
        }
        let (name, kind) = parameter.split_once(':')?;
        let kind = kind.trim();
        let items = |before| kind.strip_prefix(before)?.strip_suffix(']');
        let (crossing, argument) = if let Some(item) = items("&mut [") {
            (
                format!("{name}: *mut {item}, {name}_count: usize"),
                format!("crate::slice_mut({name}, {name}_count)"),
            )
        } else if let Some(item) = items("&[") {
            (
                format!("{name}: *const {item}, {name}_count: usize"),
                format!("crate::slice({name}, {name}_count)"),
            )
        } else if let Some(item) = kind.strip_prefix("&mut ") {
            (format!("{name}: *mut {item}"), format!("&mut *{name}"))
        } else if kind.chars().all(char::is_alphanumeric) {
            (parameter.to_owned(), name.to_owned())
        } else {
            return None;
        };
        let _ = write!(raw, "{crossing}, ");
        let _ = write!(own, "{argument}, ");
    }
    let answer = answer.trim();
    Some(format!(
        "pub unsafe extern \"C\" fn {name}({raw}) {answer} {{ unsafe {{ super::{name}({own}) }} }}"
    ))
}
