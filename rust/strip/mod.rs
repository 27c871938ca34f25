//! Makes plain Rust of a source of this repository: what the compiler of the contracts reads and
//! what runs nothing is taken out, and paths are written for one crate whose modules the crates
//! are.
//!
//! A source is read as tokens, brackets and items. Each token that stays is on the line that it was
//! on, so what rustc says of line N of what comes out is about line N of the source. No statement
//! and no expression is changed but by the names in the list below. **What is not known is an error
//! with its line, and never dropped**: an attribute, an item, a macro, a word of a contract at
//! another place. What is kept is for rustc to judge.
//!
//! # What is taken out, and why it means nothing when the code runs
//!
//! | What | Why |
//! |---|---|
//! | `requires`, `ensures`, also with `*`, a name, or at a closure; `ghost name: {..}` before them | terms for the proofs: no value is made of them |
//! | `ghost use ..;` | imports names for the contracts alone |
//! | `ghost` fields of structs | a fact over the other fields: has no memory, and no literal names it |
//! | `ghost` members of traits and of their implementations | terms for the proofs |
//! | `#[tactic(..)]`, `#![tactic(..)]` | says how proofs are sought |
//! | `impl Model for ..` of ghosts alone | says what a contract sees of a type |
//! | `final` before a function of a trait | no implementation has another body: what rustc calls is the one of the trait |
//! | `Drop` among derives and bounds | leave to drop a value, which every type of Rust gives |
//! | `impl Drop for ..` that only takes `self` apart, each part by `_` | ends loans that proofs follow: Rust drops each part so too |
//! | `#[unsafe(no_mangle)]` and `extern "C"` of a function | how callers in C reach it: `rust/c` writes for each what they call, which calls it |
//! | `unsafe` before a block, a function or an `impl` | what is called and implemented stands for safe things here, see below: rustc refuses an unsafe call |
//!
//! # What is written otherwise
//!
//! | What | As |
//! |---|---|
//! | `crate`, `std` and the names of crates, where a path begins | the modules below [`Way::root`]; `std` is its module `shim` |
//! | `#[derive_where(..)]` with no types and no `skip` | the implementations, bounded as the type is |
//! | `fn clone(&self) -> Result<Self, AllocError>` | Rust's `clone` where it is `Ok(*self)`; else it is the method `try_clone`, and Rust's `clone` panics where that is refused, as `Vec`'s does |
//! | `.clone()` | `.try_clone()`, a `Result` too |
//! | `collect(alloc)` | `collect_in(alloc)`, of the shim |
//! | `name!(rt; ..)`, `name![in alloc; ..]` | the macro of this name of the shim |
//! | `W: fmt::Write` and `Formatter<W>` | `Formatter<'_>`, and calls of functions do not name W |
//! | the parameter `rt: HostRuntime` of a function that has no other | a `let` in its body: Rust calls `main` and tests with nothing |
//! | `main` with no visibility | `pub(crate)` |
//! | `//!` | `//`, since lines stand before it |
//! | examples in documentation | texts: they are no Rust |

mod code;
mod cursor;
mod derive;
mod items;
mod lex;

use lex::{Token, lex};

/// How a crate is stripped.
pub struct Way<'a> {
    /// The crates that the source uses, whose names begin paths.
    pub uses: &'a [String],
    /// The crate that the source belongs to.
    pub own: &'a str,
    /// The path of the module that the crates are modules of, with `shim` beside them.
    pub root: &'a str,
}

/// Why a source is not stripped.
#[derive(Debug)]
pub struct Fault {
    /// The byte where it stops.
    at: usize,
    /// What is not known there.
    what: String,
}

impl Fault {
    fn new(at: usize, what: &str) -> Self {
        Self {
            at,
            what: what.to_owned(),
        }
    }
}

/// What replaces the bytes from one up to another.
struct Edit {
    from: usize,
    upto: usize,
    by: String,
}

/// A source on its way to plain Rust.
struct Strip<'a> {
    text: &'a str,
    tokens: Vec<Token>,
    edits: Vec<Edit>,
    way: &'a Way<'a>,
    /// The type that the formatter of the function at hand writes to.
    writer: Option<&'a str>,
    /// Whether an example has begun in a documentation.
    is_in_example: bool,
}

/// A source as plain Rust.
///
/// Where it has what is not known, answers the number of the line, a colon, and what that is.
pub fn strip(text: &str, way: &Way) -> Result<String, String> {
    let stripped = lex(text).and_then(|tokens| {
        let mut strip = Strip {
            text,
            tokens,
            edits: Vec::new(),
            way,
            writer: None,
            is_in_example: false,
        };
        strip.items(0, strip.tokens.len(), items::Home::Module)?;
        strip.written(0, text.len())
    });
    stripped.map_err(|fault| {
        let line = text[..fault.at].matches('\n').count() + 1;
        format!("{line}: {}", fault.what)
    })
}
