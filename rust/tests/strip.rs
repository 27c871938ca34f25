//! What is taken out of the sources, construct by construct, and what is refused.

#[path = "../strip/mod.rs"]
mod strip;

use strip::{Way, strip};

/// Strips a source of the crate `own`, which uses the crate `low`.
fn stripped(source: &str) -> Result<String, String> {
    let uses = ["low".to_owned()];
    strip(
        source,
        &Way {
            uses: &uses,
            own: "own",
            root: "crate::all",
        },
    )
}

/// A text with one space for each row of them.
fn spaced(text: &str) -> String {
    text.split_whitespace().collect::<Vec<_>>().join(" ")
}

/// Asserts what comes of a source, however it is laid out, and that its lines stay.
#[track_caller]
fn becomes(source: &str, wanted: &str) {
    let plain = stripped(source).unwrap();
    assert_eq!(spaced(&plain), spaced(wanted));
    assert_eq!(plain.matches('\n').count(), source.matches('\n').count());
}

/// Asserts that a source is refused, at a line, for a reason that begins so.
#[track_caller]
fn refused(source: &str, reason: &str) {
    let fault = stripped(source).unwrap_err();
    assert!(fault.starts_with(reason), "{fault}");
}

/// Asserts that a source stays as it is.
#[track_caller]
fn stays(source: &str) {
    assert_eq!(stripped(source).unwrap(), source);
}

#[test]
fn plain_code_stays() {
    stays("pub const A: u8 = 1 + 2;\nstatic B: [u8; 2] = [b'\\'', b'a'];\n");
    stays("fn f<'a>(x: &'a [u8]) -> Option<&'a u8> {\n    // a comment\n    x.iter().next()\n}\n");
    stays(
        "fn f(x: u8) -> u8 { let a = if x < 3 { x } else { !(x) }; match a { 0 => 1, b => b >> 1 } }",
    );
    stays(
        "#[derive(Clone, Copy)]\n#[repr(C)]\npub struct A<T>(pub T, u8);\nenum B { C = 1, D { e: u8 } }\n",
    );
    stays("mod a { fn f() { const B: u8 = 2; fn g() {} let c = |x: u8| x; g(c(B)); } }\n");
    stays("fn f() { for x in 0..3 { while x != !(1) { return; } } unreachable!() }");
}

#[test]
fn texts_and_characters_hide_what_they_have() {
    stays("const A: &str = \"ghost } \\\" requires {\";");
    stays("const A: &str = r#\"ghost \" } requires {\"#;\nconst B: &[u8] = br\"}\";");
    stays("const A: [char; 3] = ['}', '\\'', '\\u{7d}'];");
    stays("/* ghost /* } */ requires { */ fn f() {}");
}

#[test]
fn clauses_of_functions_go() {
    becomes(
        "fn f(x: u8) -> u8\n    requires { x < 3 }\n    ensures { result ≡ x }\n{\n    x\n}\n",
        "fn f(x: u8) -> u8 { x }",
    );
    becomes(
        "fn f(x: u8) requires low { x < 3 } requires high { 1 < x } { g(x); h(x) }",
        "fn f(x: u8) { g(x); h(x) }",
    );
    becomes(
        "fn f(x: &mut u8) ensures { x.new ≡ 3 } { *x = 1; *x += 2; }",
        "fn f(x: &mut u8) { *x = 1; *x += 2; }",
    );
    becomes(
        "fn f(x: &mut u8) ghost top: { ℕ } requires* { ⌜ x ⌝ } ensures* rest { λ y. y' } {}",
        "fn f(x: &mut u8) {}",
    );
    becomes(
        "trait A { final fn f() -> u8 ensures { r } { 1 } }",
        "trait A { fn f() -> u8 { 1 } }",
    );
    becomes(
        "trait A { fn f() -> u8 ensures { let r = result in { r } }; fn g(); }",
        "trait A { fn f() -> u8 ; fn g(); }",
    );
    becomes(
        "fn f<T>(x: T) -> [u8; 2] where T: Copy ensures { ⊤ } { [1; 2] }",
        "fn f<T>(x: T) -> [u8; 2] where T: Copy { [1; 2] }",
    );
    becomes(
        "pub const fn f() -> u8 ensures { result ≡ 1 } { 1 }",
        "pub const fn f() -> u8 { 1 }",
    );
}

#[test]
fn clauses_of_closures_go() {
    becomes(
        "fn f() { let a = |x: u8| -> Result<u8, B> requires { x < 3 } { Ok(x) }; a(1); }",
        "fn f() { let a = |x: u8| -> Result<u8, B> { Ok(x) }; a(1); }",
    );
    refused(
        "fn f() {\n let a = |x: u8| requires { x < 3 } x; }",
        "2: a closure without its block",
    );
}

#[test]
fn clauses_elsewhere_are_refused() {
    refused(
        "fn f() {\n    while x requires { x } {}\n}",
        "2: a clause that belongs to no function",
    );
    refused(
        "fn f() {\n    while x\n        decreases { x } {}\n}",
        "3: a clause that is not known",
    );
    refused(
        "fn f() { loop invariant { x } { g() } }",
        "1: a clause that is not known",
    );
    refused("fn f() { let requires = 1; }", "1: a clause");
    refused("fn f() requires x > 1 {}", "1: a clause without its braces");
    refused("requires { x }", "1: an item that is not known");
}

#[test]
fn ghosts_go() {
    becomes(
        "ghost use Rattle.std.specs.Prelude.{◌≡◌, ◌+◌} ;\nuse std::fmt;",
        "use crate::all::shim::fmt;",
    );
    becomes(
        "trait A {\n    /// What it is.\n    ghost at: { Self → ℕ } = { λ s. s' };\n    ghost b: { ⊤ };\n    const C: u8;\n}",
        "trait A { const C: u8; }",
    );
    becomes(
        "impl A for B { ghost at = { λ s. 4 }; ghost use C.{D}; const C: u8 = 1; }",
        "impl A for B { const C: u8 = 1; }",
    );
    becomes(
        "pub struct A {\n    /// The place.\n    pub at: u8,\n    /// It is low.\n    pub ghost low: { at ≤ 3 },\n}",
        "pub struct A { /// The place.\n pub at: u8, }",
    );
    becomes(
        "struct A { at: u8, ghost low: { at ≤ 3 } }",
        "struct A { at: u8, }",
    );
    becomes("fn f() { ghost use A.{B}; g() }", "fn f() { g() }");
}

#[test]
fn other_ghosts_are_refused() {
    refused(
        "ghost fn f(x: { y: u8 }) { x }",
        "1: a ghost that is not known",
    );
    refused(
        "struct A {\n    ghost at(x: u8): { x },\n}",
        "2: a ghost that is not known",
    );
    refused(
        "fn f() {\n    ghost let x = 1;\n}",
        "2: a ghost that is not known",
    );
    refused("fn f() { g(ghost) }", "1: a ghost that is not known");
    refused(
        "trait A { ghost at: { ℕ } fn f(); }",
        "1: a ghost that has another end",
    );
    refused(
        "ghost use A.{B}\nuse std::fmt;",
        "2: a ghost that has another end",
    );
    refused(
        "enum A { B { ghost at { ℕ } } }",
        "1: a ghost that is not known",
    );
}

#[test]
fn tactics_go_and_other_attributes_are_refused() {
    becomes(
        "#![tactic(auto)]\n#[tactic(auto, using(a::b))]\nfn f() { #[tactic(none)] let x = 1; }",
        "fn f() { let x = 1; }",
    );
    stays("#[cfg(test)]\n#[test]\n#[inline(always)]\n#[must_use]\nfn f() {}");
    refused(
        "#[cfg(unix)]\nfn f() {}",
        "1: an attribute that is not known",
    );
    refused(
        "\n#[cycle(a)]\nfn f() {}",
        "2: an attribute that is not known",
    );
    refused("#![no_std]", "1: an attribute that is not known");
    refused("#[repr(u8)] enum A {}", "1: an attribute that is not known");
    refused(
        "fn f() { #[derive_where(Copy)] struct A {} }",
        "1: this is derived for items of modules alone",
    );
}

#[test]
fn models_go() {
    becomes(
        "use std::marker::Model;\n/// It.\nimpl<T> Model for A<T> { ghost use B.{C}; ghost Value = { ℕ }; ghost view = { λ s. s }; }\nfn f() {}",
        "use crate::all::shim::marker::Model; fn f() {}",
    );
    refused(
        "impl Model for A { ghost Value = { ℕ }; fn f() {} }",
        "1: a model with more than ghosts",
    );
}

#[test]
fn leave_to_drop_goes() {
    becomes(
        "#[derive(Drop)] struct A; #[derive(Clone, Drop, Debug)] struct B;",
        "struct A; #[derive(Clone, Debug)] struct B;",
    );
    becomes(
        "fn f<A: Drop, B: Drop + Copy, C: Copy + Drop>(x: impl D + Drop) {}",
        "fn f<A: , B: Copy, C: Copy >(x: impl D ) {}",
    );
    becomes(
        "trait A: Drop {} fn f(x: &mut (dyn B + Drop)) where B: Drop {}",
        "trait A: {} fn f(x: &mut (dyn B )) where B: {}",
    );
    refused(
        "fn f() { Drop::drop(x) }",
        "1: a bound of this form is not known",
    );
    refused(
        "#[derive(a::B)] struct C;",
        "1: an attribute that is not known",
    );
}

#[test]
fn drops_that_end_loans_go() {
    becomes(
        "impl<'a> Drop for A<'a> {\n    ghost use B.{c};\n    fn drop(self) ensures { ⊤ } { let A { a: _, b: _ } = self; }\n}\nfn f() {}",
        "fn f() {}",
    );
    becomes(
        "impl Drop for A<'_> { fn drop(self) { let A(_) = self; } }",
        "",
    );
    refused(
        "impl Drop for A {\n    fn drop(self) { g(); let A { a: _ } = self; }\n}",
        "2: a drop that does more",
    );
    refused(
        "impl Drop for A {\n    fn drop(self) { let A { a } = self; }\n}",
        "2: a drop that does more",
    );
    refused(
        "impl Drop for A {\n    fn drop(self) { let A { a: _ } = self; g(); }\n}",
        "2: a drop that does more",
    );
    refused(
        "impl Drop for A {\n    fn drop(self) { let A { a: _ } = other; }\n}",
        "2: a drop that does more",
    );
}

#[test]
fn copies_answer_no_result() {
    becomes(
        "impl Clone for A { ghost is_clone = { λ a b. ⊤ }; fn clone(&self) -> Result<Self, AllocError> { Ok(*self) } }",
        "impl Clone for A { fn clone(&self) -> Self { *self } }",
    );
    becomes(
        "impl<T: B>\n    Clone for A<T> {\n    fn clone(&self) -> Result<Self, AllocError> {\n        A::of(self.b.clone()?)\n    }\n}",
        "impl<T: B> Clone for A<T> { fn clone(&self) -> Self { self.try_clone().expect(\"memory for a copy\") } } \
         impl<T: B> A<T> { pub(crate) fn try_clone(&self) -> Result<Self, AllocError> { A::of(self.b.try_clone()?) } }",
    );
    becomes(
        "fn f() { a.clone().ok()?; b.clone() }",
        "fn f() { a.try_clone().ok()?; b.try_clone() }",
    );
    refused(
        "impl Clone for A { fn clone(&self) -> Self { *self } }",
        "1: a `clone` of this form is not known",
    );
}

#[test]
fn exports_are_functions_like_others() {
    becomes(
        "/// Text.\n#[unsafe(no_mangle)]\npub extern \"C\" fn f(x: &[u8]) -> u8\n    ensures { result ≡ 1 }\n{\n    1\n}\n",
        "/// Text. pub fn f(x: &[u8]) -> u8 { 1 }",
    );
    refused("pub extern \"C\" fn f() {}", "1: an item that is not known");
    refused(
        "unsafe extern \"C\" fn f() {}",
        "1: a function that is not known",
    );
    for item in [
        "pub fn f() {}",
        "extern \"D\" fn f() {}",
        "static A: u8 = 1;",
    ] {
        refused(
            &format!("#[unsafe(no_mangle)]\n{item}"),
            "2: an export that is no function",
        );
    }
    refused(
        "#[unsafe(link_section = \"a\")] fn f() {}",
        "1: an attribute that is not known",
    );
    refused(
        "fn f() { #[unsafe(no_mangle)] g(); }",
        "1: an export within code",
    );
}

#[test]
fn unsafe_goes() {
    becomes(
        "fn f() { unsafe { std::g() } } unsafe impl A for B { unsafe fn c() {} }",
        "fn f() { { crate::all::shim::g() } } impl A for B { fn c() {} }",
    );
    refused("fn f(x: unsafe fn()) {}", "1: this is not known to be safe");
    refused("unsafe trait A {}", "1: a function that is not known");
}

#[test]
fn paths_begin_at_the_root() {
    becomes(
        "use crate::a::{b, c};\nuse low::d;\npub use low as e;\nuse self::f;",
        "use crate::all::own::a::{b, c}; use crate::all::low::d; pub use crate::all::low as e; use self::f;",
    );
    becomes(
        "fn f(x: crate::A) -> std::B<low::C> { alloc::d() }",
        "fn f(x: crate::all::own::A) -> crate::all::shim::B<crate::all::low::C> { crate::all::shim::d() }",
    );
    stays("fn f(low: A) { low.std(); B::low::c(); high::d(); std::<u8>(); g::crate_of() }");
    refused("use {a, b};", "1: an import of this form is not known");
}

#[test]
fn macros_that_are_handed_something_are_of_the_root() {
    becomes(
        "fn f() { assert_eq!(rt; low::a(), 1); vec![in a; 1; 2]?; println!(rt; \"{x}\")? }",
        "fn f() { crate::all::shim::assert_eq!(rt; crate::all::low::a(), 1); crate::all::shim::vec![in a; 1; 2]?; crate::all::shim::println!(rt; \"{x}\")? }",
    );
    stays("fn f() { write!(f, \"{}\", a)?; matches!(a, B | C) }");
    refused(
        "fn f() {\n    assert!(true);\n}",
        "2: a macro that is not known",
    );
    refused("fn f() { vec![1; 2] }", "1: a macro that is not known");
    refused("fn f() { other![rt; 1] }", "1: a macro that is not known");
    refused(
        "macro_rules! a { () => {} }",
        "1: an item that is not known",
    );
}

#[test]
fn formatters_name_nothing() {
    becomes(
        "fn f<W: fmt::Write>(f: &mut fmt::Formatter<W>) { g::<W>(f); h::<A, W>(f); i::<W, A>(f) }",
        "fn f(f: &mut fmt::Formatter<'_>) { g(f); h::<A>(f); i::< A>(f) }",
    );
    becomes(
        "fn f<A, W: fmt::Write>(f: &mut Formatter<W>) {}",
        "fn f<A>(f: &mut Formatter<'_>) {}",
    );
    stays("fn f<W: fmt::Write>(out: &mut W) {}");
    refused(
        "fn f<W: fmt::Write>(f: &mut Formatter<W>) { let g: W = 1; }",
        "1: what a formatter writes to",
    );
    refused(
        "fn f(f: &mut Formatter<A>) {}",
        "1: a formatter of this form is not known",
    );
}

#[test]
fn programs_and_tests_are_handed_the_runtime_within() {
    becomes(
        "fn main(rt: HostRuntime) -> ExitCode { f(&rt) }",
        "pub(crate) fn main() -> ExitCode { let rt = crate::all::shim::rt::HostRuntime; f(&rt) }",
    );
    becomes(
        "fn f() { let _ = a.collect(rt.alloc()); b.collect() }",
        "fn f() { let _ = a.collect_in(rt.alloc()); b.collect() }",
    );
}

#[test]
fn examples_are_texts() {
    becomes(
        "//! A module.\n\n/// It.\n/// ```\n/// a(rt)\n/// ```\nfn f() {}",
        "// A module. /// It. /// ```text /// a(rt) /// ``` fn f() {}",
    );
    refused(
        "/// ```rust\n/// ```\nfn f() {}",
        "1: an example of this kind is not known",
    );
    refused(
        "/** It. */ fn f() {}",
        "1: documentation of this form is not known",
    );
}

#[test]
fn what_is_no_source_is_refused() {
    refused(
        "fn f() { (] }",
        "1: a bracket that closes one of another kind",
    );
    refused("fn f() {\n", "1: a bracket that is not closed");
    refused("}", "1: a bracket that closes nothing");
    refused("const A: &str = \"a", "1: a text without its end");
    refused("const r#A: u8 = 1;", "1: a name of this form is not known");
    refused("union A { b: u8 }", "1: an item that is not known");
    refused("final fn f() {}", "1: an item that is not known");
    refused("async fn f() {}", "1: an item that is not known");
    refused("/* a", "1: a comment without its end");
}

/// What `derive_where` writes behind a type.
#[track_caller]
fn derives(name: &str, of: &str, wanted: &str) {
    let plain = stripped(&format!("#[derive_where({name})]{of}")).unwrap();
    let written = plain
        .strip_prefix(of)
        .expect("the type stays")
        .replace("::core::", "");
    assert_eq!(spaced(&written), spaced(wanted));
}

#[test]
fn structs_are_derived_by_their_fields_in_turn() {
    let of = "struct A<T, const N: usize = 3> { a: [T; N], #[doc = \"\"] pub b: B<T, T> }";
    let head = "for A<T, N, > {";
    derives(
        "Copy, Eq",
        of,
        &format!(
            "impl<T, const N: usize, > marker::Copy {head} }} impl<T, const N: usize, > cmp::Eq {head} }}"
        ),
    );
    derives(
        "Clone",
        of,
        &format!(
            "impl<T, const N: usize, > clone::Clone {head} fn clone(&self) -> Self {{ *self }} }}"
        ),
    );
    derives(
        "PartialEq",
        of,
        &format!(
            "impl<T, const N: usize, > cmp::PartialEq {head} fn eq(&self, other: &Self) -> bool {{ match (self, other) {{ \
         (Self {{ a: aa, b: ab }}, Self {{ a: ba, b: bb }}) => true && aa == ba && ab == bb, }} }} }}"
        ),
    );
    derives(
        "Ord",
        of,
        &format!(
            "impl<T, const N: usize, > cmp::Ord {head} fn cmp(&self, other: &Self) -> cmp::Ordering {{ match (self, other) {{ \
         (Self {{ a: aa, b: ab }}, Self {{ a: ba, b: bb }}) => cmp::Ordering::Equal.then_with(|| cmp::Ord::cmp(aa, ba)).then_with(|| cmp::Ord::cmp(ab, bb)), }} }} }}"
        ),
    );
    derives(
        "PartialOrd",
        "struct A { a: u8 }",
        "impl<> cmp::PartialOrd for A<> { fn partial_cmp(&self, other: &Self) -> Option<cmp::Ordering> { Some(cmp::Ord::cmp(self, other)) } }",
    );
    derives(
        "Hash",
        "struct A { a: u8 }",
        "impl<> hash::Hash for A<> { fn hash<Hashing: hash::Hasher>(&self, state: &mut Hashing) { match self { Self { a: aa } => { hash::Hash::hash(aa, state); } } } }",
    );
    derives(
        "Debug",
        "struct A { a: u8 }",
        "impl<> fmt::Debug for A<> { fn fmt(&self, f: &mut fmt::Formatter<'_>) -> fmt::Result { match self { Self { a: aa } => f.debug_struct(\"A\").field(\"a\", aa).finish(), } } }",
    );
}

#[test]
fn enums_are_derived_by_their_variants_first() {
    let of = "enum A { B, /// It.\n C(u8, u16) }";
    derives(
        "PartialEq",
        of,
        "impl<> cmp::PartialEq for A<> { fn eq(&self, other: &Self) -> bool { match (self, other) { \
        (Self::B { }, Self::B { }) => true, (Self::C { 0: a0, 1: a1 }, Self::C { 0: b0, 1: b1 }) => true && a0 == b0 && a1 == b1, _ => false } } }",
    );
    derives(
        "Ord",
        of,
        "impl<> cmp::Ord for A<> { fn cmp(&self, other: &Self) -> cmp::Ordering { \
        let rank = |it: &Self| match it { Self::B { .. } => 0_u8, Self::C { .. } => 1_u8, }; match (self, other) { \
        (Self::B { }, Self::B { }) => cmp::Ordering::Equal, (Self::C { 0: a0, 1: a1 }, Self::C { 0: b0, 1: b1 }) => \
        cmp::Ordering::Equal.then_with(|| cmp::Ord::cmp(a0, b0)).then_with(|| cmp::Ord::cmp(a1, b1)), _ => rank(self).cmp(&rank(other)) } } }",
    );
    derives(
        "Hash",
        of,
        "impl<> hash::Hash for A<> { fn hash<Hashing: hash::Hasher>(&self, state: &mut Hashing) { match self { \
        Self::B { } => { hash::Hash::hash(&0_isize, state); } Self::C { 0: a0, 1: a1 } => { hash::Hash::hash(&1_isize, state); \
        hash::Hash::hash(a0, state); hash::Hash::hash(a1, state); } } } }",
    );
    derives(
        "Debug",
        of,
        "impl<> fmt::Debug for A<> { fn fmt(&self, f: &mut fmt::Formatter<'_>) -> fmt::Result { match self { \
        Self::B { } => f.write_str(\"B\"), Self::C { 0: a0, 1: a1 } => f.debug_tuple(\"C\").field(a0).field(a1).finish(), } } }",
    );
}

#[test]
fn ghosts_are_not_derived_and_other_forms_are_refused() {
    let plain =
        stripped("#[derive_where(PartialEq)]\nstruct A<T> { b: T, ghost c: { ⊤ } }").unwrap();
    assert!(
        plain.contains("ab == bb") && !plain.contains("ac"),
        "{plain}"
    );
    refused(
        "#[derive_where(Default)]\nstruct A { b: u8 }",
        "2: `Default` is not known to be derived",
    );
    refused(
        "#[derive_where(Eq; T)] struct A<T> { b: T }",
        "1: an attribute that is not known",
    );
    refused(
        "#[derive_where(Copy)] struct A(u8);",
        "1: what is derived for this form is not known",
    );
    refused(
        "struct A { #[derive_where(skip)] b: u8 }",
        "1: an attribute that is not known at a field",
    );
}

/// Each source of the repository is stripped where it is here, but for the exports for C, and its
/// lines stay.
#[test]
fn lines_stay() {
    fn sources(folder: &std::path::Path, all: &mut Vec<std::path::PathBuf>) {
        for entry in std::fs::read_dir(folder).into_iter().flatten().flatten() {
            match entry.path() {
                // (what the kit makes lies in `out`)
                path if path.ends_with("bitvec_c") || path.ends_with("out") => {}
                path if path.is_dir() => sources(&path, all),
                path if path.extension().is_some_and(|it| it == "rt") => all.push(path),
                _ => {}
            }
        }
    }
    let mut all = Vec::new();
    sources(
        &std::path::Path::new(env!("CARGO_MANIFEST_DIR")).join("crates"),
        &mut all,
    );
    assert!(!all.is_empty());
    for path in all {
        let source = std::fs::read_to_string(&path).unwrap();
        let plain = stripped(&source).unwrap_or_else(|fault| panic!("{}:{fault}", path.display()));
        let lines = |text: &str| text.matches('\n').count();
        assert_eq!(lines(&plain), lines(&source), "{}", path.display());
    }
}
