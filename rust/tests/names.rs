//! The page for programs in Rust (`docs/RUST.md`) names what is there: each method of the crate
//! `bitvec` that it says is here, by the same name or another, is one that `rust/src` declares, and
//! each of which it says that there is none is not. Each call that is public has an example, and many
//! have the sentence of the proved source's call.

use std::collections::{BTreeMap, BTreeSet};
use std::fs;
use std::path::Path;

fn read(path: &str) -> String {
    fs::read_to_string(Path::new(env!("CARGO_MANIFEST_DIR")).join(path)).expect("it is here")
}

/// The names in a text: what letters, digits and `_` make of it.
fn words(text: &str) -> impl Iterator<Item = &str> {
    text.split(|c: char| !c.is_alphanumeric() && c != '_')
        .filter(|word| word.starts_with(|c: char| c.is_alphabetic() || c == '_'))
}

/// Each name that the sources declare, also by a macro that makes `name by try_name(..)` a function.
fn declared() -> BTreeSet<String> {
    const BEFORE: [&str; 8] = [
        "mod",
        "fn",
        "macro_rules",
        "struct",
        "enum",
        "trait",
        "type",
        "const",
    ];
    let mut names = BTreeSet::new();
    for file in
        fs::read_dir(Path::new(env!("CARGO_MANIFEST_DIR")).join("rust/src")).expect("it is here")
    {
        let path = file.expect("a file").path();
        if path.extension().is_none_or(|it| it != "rs") {
            continue;
        }
        for line in fs::read_to_string(path).expect("a text").lines() {
            let line = line.trim_start();
            if line.starts_with("//") {
                continue;
            }
            let words: Vec<&str> = words(line).collect();
            for pair in words.windows(2) {
                if BEFORE.contains(&pair[0]) {
                    names.insert(pair[1].to_owned());
                } else if pair[1] == "by" {
                    names.insert(pair[0].to_owned());
                }
            }
        }
    }
    names
}

/// The docs and attributes of an item: the lines before its own, up to one that is none of these.
fn docs_before<'a>(lines: &[&'a str]) -> Vec<&'a str> {
    let is_of_docs = |line: &str| {
        let begins = ["///", "#[", ")]", "\"", "$(#[", "stringify!"];
        begins.iter().any(|it| line.starts_with(it))
    };
    let before = lines.iter().rev().map(|line| line.trim());
    before.take_while(|line| is_of_docs(line)).collect()
}

/// The public calls of a source that have no example in their docs, and how many have one: functions
/// and methods, those of public traits, and those that a macro makes panic (`set by try_set(..)`).
fn without_example(source: &str, traits: &BTreeSet<String>) -> (Vec<String>, usize) {
    let lines: Vec<&str> = source.lines().collect();
    let (mut without, mut with, mut in_trait) = (Vec::new(), 0, false);
    for (at, line) in lines.iter().enumerate() {
        if !line.starts_with([' ', '}']) {
            let name = line
                .strip_prefix("pub trait ")
                .and_then(|it| words(it).next());
            in_trait = in_trait && line.is_empty() || name.is_some_and(|it| traits.contains(it));
        }
        in_trait &= *line != "}";
        let text = line.trim_start();
        let names: Vec<&str> = words(text).take(3).collect();
        let is_call = text.starts_with("pub fn ")
            || text.starts_with("pub const fn ")
            || in_trait && line.starts_with("    fn ")
            || names.get(1) == Some(&"by") && text.contains('(') && text.ends_with(';');
        if !is_call {
            continue;
        }
        let docs = docs_before(&lines[..at]);
        let has = |part: &str| docs.iter().any(|it| it.contains(part));
        // (what a macro makes of entries is asked of these)
        if has("doc(hidden)") || has("$(#[$attribute])*") {
            continue;
        }
        if has("/// # Examples") || has("example!(") {
            with += 1;
        } else {
            without.push((*line).to_owned());
        }
    }
    (without, with)
}

#[test]
fn each_public_call_has_an_example() {
    let library = read("rust/src/lib.rs");
    let public = library.lines().filter(|line| line.starts_with("pub use"));
    let traits = public.flat_map(words).map(str::to_owned).collect();
    let (mut calls, folder) = (0, Path::new(env!("CARGO_MANIFEST_DIR")).join("rust/src"));
    for file in fs::read_dir(folder).expect("it is here") {
        let path = file.expect("a file").path();
        if path.extension().is_some_and(|it| it == "rs") {
            let source = fs::read_to_string(&path).expect("a text");
            let (without, with) = without_example(&source, &traits);
            assert!(without.is_empty(), "{}: {without:#?}", path.display());
            calls += with;
        }
    }
    assert!(calls > 240, "{calls} calls");
    let (without, with) = without_example(
        "impl A {\n    /// B.\n    pub fn c() {}\n}\npub trait D {\n    /// E.\n    fn f();\n}\n",
        &BTreeSet::from(["D".to_owned()]),
    );
    assert_eq!((without.len(), with), (2, 0));
    // (each call that is handed on has its lines in the entry, which the macros ask for)
    let entries = read("rust/src/readers.rs");
    assert_eq!(entries.matches("=>\n                \"").count(), 56 + 31);
}

/// What stands in backticks.
fn quoted(text: &str) -> impl Iterator<Item = &str> {
    text.split('`').skip(1).step_by(2)
}

/// The lines of a page under a heading of the third rank.
fn under<'a>(page: &'a str, heading: &str) -> impl Iterator<Item = &'a str> {
    let behind = page.split_once(&format!("\n### {heading}\n"));
    let lines = behind.expect("a heading").1.lines();
    lines.take_while(|line| !line.starts_with('#'))
}

/// What the items of a list name, each behind the last colon of its own, with what stands before it.
fn listed<'a>(page: &'a str, heading: &str) -> Vec<(&'a str, &'a str)> {
    let items = under(page, heading).filter_map(|line| line.strip_prefix("- ")?.rsplit_once(": "));
    let names = items.flat_map(|(item, names)| quoted(names).map(move |name| (item, name)));
    let names: Vec<_> = names.collect();
    let apart = names.iter().collect::<BTreeSet<_>>();
    assert_eq!(apart.len(), names.len(), "a name is there twice: {names:?}");
    names
}

#[test]
fn each_name_of_the_page_is_there() {
    let (page, declared) = (read("docs/RUST.md"), declared());
    assert!(declared.contains("set") && !declared.contains("set_unchecked"));
    // (what is declared of these traits of std has another name)
    let has = |name: &str| declared.contains(name) || ["Hash", "collect"].contains(&name);
    let (same, twins) = (
        listed(&page, "Of the same name"),
        listed(&page, "Of the same name, with a twin"),
    );
    let none = listed(&page, "Of none");
    for name in same.iter().chain(&twins).flat_map(|it| words(it.1)) {
        assert!(has(name), "there is no {name}");
    }
    for (_, name) in &twins {
        assert!(has(&format!("try_{name}")), "{name} has no twin");
    }
    for (_, name) in &none {
        assert!(!has(name), "there is a {name}");
    }
    let table = under(&page, "Of another name or meaning");
    let rows: Vec<&str> = table
        .skip_while(|line| !line.starts_with("---"))
        .skip(1)
        .collect();
    let rows: Vec<&str> = rows
        .into_iter()
        .take_while(|line| !line.is_empty())
        .collect();
    for row in &rows {
        let cells: Vec<&str> = row.split(" |").collect();
        assert_eq!(cells.len(), 3, "three columns: {row}");
        for name in quoted(cells[1]).flat_map(words) {
            assert!(has(name), "there is no {name}: {row}");
        }
    }
    let apart: BTreeSet<_> = rows
        .iter()
        .filter_map(|row| row.split(" |").next())
        .collect();
    assert_eq!(apart.len(), rows.len(), "a row is there twice");
    let counts = [same.len(), twins.len(), rows.len(), none.len()];
    assert!(
        counts
            .iter()
            .zip([95, 25, 30, 60])
            .all(|(count, least)| *count > least),
        "{counts:?}"
    );
}

#[test]
fn each_name_of_the_prelude_is_told() {
    let page = read("docs/RUST.md");
    let told: BTreeSet<&str> = words(&page).collect();
    let prelude = read("rust/src/prelude.rs");
    let names = prelude
        .lines()
        .filter(|line| line.starts_with("pub use"))
        .flat_map(words)
        .filter(|name| name.starts_with(char::is_uppercase));
    // (those that `bitvec` has no like of, or that its users do not type)
    let others = ["AsBits", "AsMutBits", "BitView", "Refusal"];
    for name in names {
        assert!(told.contains(name) || others.contains(&name), "{name}");
    }
}

/// The first sentence of the docs of each call of a type in the sources under a folder, by the call's
/// name. Where a link leads is left out.
fn sentences(folder: &Path, of: &str, found: &mut BTreeMap<String, String>) {
    for entry in fs::read_dir(folder).into_iter().flatten().flatten() {
        let path = entry.path();
        if path.is_dir() {
            sentences(&path, of, found);
            continue;
        }
        let (mut is_of, mut docs) = (false, String::new());
        for line in fs::read_to_string(path).expect("a text").lines() {
            let text = line.trim_start();
            if line.starts_with("impl") || line.starts_with("    [") {
                is_of = line.contains(&format!(" {of}<"));
            }
            if let Some(said) = text.strip_prefix("///") {
                docs = docs + said.trim() + " ";
            } else if !text.starts_with("#[") && !text.starts_with(")]") {
                let is_call = text.starts_with("pub ") || text.contains(" by try_");
                let call = text.split_once("fn ").map_or(text, |it| it.1);
                if let Some(name) = words(call).next().filter(|_| is_call && is_of) {
                    let first = docs.split(". ").next().unwrap_or_default();
                    let parts = first.split("](").enumerate().map(|(i, it)| match i {
                        0 => it,
                        _ => it.split_once(')').map_or(it, |it| it.1),
                    });
                    let name = name.to_owned();
                    found.entry(name).or_insert_with(|| parts.collect());
                }
                docs.clear();
            }
        }
    }
}

/// Each of these calls of a type has the sentence of the source's call of its name, in a crate.
#[test]
fn sentences_of_the_sources_are_kept() {
    let top = Path::new(env!("CARGO_MANIFEST_DIR"));
    for names in SAME {
        let mut names = names.split_whitespace();
        let (of, folder) = (
            names.next().expect("a type"),
            names.next().expect("a crate"),
        );
        let (mut here, mut there) = (BTreeMap::new(), BTreeMap::new());
        sentences(&top.join("rust/src"), of, &mut here);
        // (beside the sources lies what the kit makes)
        let sources = top.join("crates").join(folder).join("src");
        sentences(&sources, of, &mut there);
        // (a package has not each crate)
        for call in names.filter(|_| !there.is_empty()) {
            let source = there.get(call.trim_start_matches("try_"));
            assert!(source.is_some(), "there is no {call} in {folder}");
            assert_eq!(here.get(call), source, "{of}::{call}");
        }
    }
}

const SAME: [&str; 7] = [
    "BitSlice bitvec_slice
    is_subset intersects count_and count_or first_difference compare count_ones count_zeros first_one
    first_zero last_one last_zero next_one next_zero previous_one previous_zero find_zeros
    leading_zeros leading_ones trailing_zeros trailing_ones any not_any not_all split_at split_first
    split_last iter_ones iter_zeros len is_empty first last try_load_le try_load_be",
    "BitSliceMut bitvec_slice
    and_not_from swap shift_left shift_right rotate_right try_swap try_shift_left try_shift_right
    try_rotate_right as_bitslice",
    "BitVec bitvec_vec
    new with_capacity repeat capacity as_bitslice as_mut_bitslice reserve push pop truncate clear
    insert remove swap_remove split_off resize",
    "BitArray bitvec_array new as_bitslice as_mut_bitslice",
    "BitReader bitvec_stream new position remaining skip read_bit read_slice read_unary",
    "BitWriter bitvec_stream new position remaining written finish skip write_bit",
    "FreeMap freemap
    new from_words blocks is_in_use is_free count_free alloc alloc_at_or_after alloc_run
    alloc_run_aligned reserve free next_free_run iter_free_runs largest_run",
];
