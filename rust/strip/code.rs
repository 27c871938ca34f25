//! Functions: their signatures, clauses and bodies.

use super::items::{Home, Lead};
use super::{Fault, Strip};

/// Words that are no macro where `!` is behind them.
const WORDS_OF_RUST: [&str; 8] = [
    "break", "else", "if", "in", "match", "return", "while", "yield",
];

/// Macros that mean the same in Rust.
const MACROS: [&str; 4] = ["matches", "unreachable", "write", "writeln"];

/// Macros that are handed the runtime, or an allocator.
const HANDED: [&str; 9] = [
    "assert",
    "assert_eq",
    "assert_ne",
    "eprintln",
    "format",
    "panic",
    "print",
    "println",
    "vec",
];

/// Words that items in a body begin with.
const ITEMS: [&str; 11] = [
    "const", "enum", "fn", "ghost", "impl", "mod", "pub", "static", "struct", "trait", "use",
];

impl Strip<'_> {
    /// Strips a function, and answers the token behind it.
    pub(super) fn function(&mut self, lead: &Lead, home: Home) -> Result<usize, Fault> {
        let mut i = lead.next;
        while self.text(i) != "fn" {
            match self.text(i) {
                "unsafe" => self.cut(i, i + 1),
                "final" if home == Home::Members => self.cut(i, i + 1),
                "extern" | "\"C\"" if lead.is_export => self.cut(i, i + 1),
                "const" => {}
                _ => return self.fault(i, "a function that is not known"),
            }
            i += 1;
        }
        if home == Home::Module && lead.is_private && self.text(i + 1) == "main" {
            self.insert_before(lead.next, "pub(crate) ");
        }
        let outer = self.writer;
        let result = self.head(i)?;
        let body = self.clauses(result)?;
        let end = match self.text(body) {
            ";" => body + 1,
            "{" => {
                let end = self.behind(body);
                self.runtime(i, body)?;
                self.code(body + 1, end - 1)?;
                end
            }
            _ => return self.fault(body, "a function without its end"),
        };
        self.writer = outer;
        Ok(end)
    }

    /// Strips a signature, and answers the token behind it. What its formatter writes to goes from
    /// the generics: the formatters of Rust have none.
    fn head(&mut self, i: usize) -> Result<usize, Fault> {
        let end = self.signature(i)?;
        self.writer = None;
        let Some((from, upto)) = self.formatter(i)? else {
            self.code(i + 2, end)?;
            return Ok(end);
        };
        self.writer = Some(self.text(from));
        let close = self.angle(i + 2)?;
        self.code(i + 3, from)?;
        self.code(upto, end)?;
        match (from == i + 3, upto == close) {
            (true, true) => self.cut(i + 2, close + 1),
            (true, false) => self.cut(from, upto + 1),
            (false, _) => self.cut(from - 1, upto),
        }
        Ok(end)
    }

    /// The parameter of the generics that a formatter writes to.
    fn formatter(&self, i: usize) -> Result<Option<(usize, usize)>, Fault> {
        if self.text(i + 2) != "<" {
            return Ok(None);
        }
        let close = self.angle(i + 2)?;
        let (from, upto) = (close + 1, self.behind(close + 1));
        let is_writer = |part: &(usize, usize)| {
            let name = self.text(part.0);
            let is_shown = (from..upto).any(|at| self.is(at, &["Formatter", "<", name, ">"]));
            is_shown && matches!(self.slice(part.0 + 1, part.1), ": fmt::Write" | ": Write")
        };
        Ok(self.parts(i + 2, close)?.into_iter().find(is_writer))
    }

    /// The token behind the signature of the function whose `fn` is `i`.
    pub(super) fn signature(&self, i: usize) -> Result<usize, Fault> {
        if self.text(i) != "fn" || !self.is_word(i + 1) {
            return self.fault(i, "a function without its name");
        }
        let open = if self.text(i + 2) == "<" {
            self.angle(i + 2)? + 1
        } else {
            i + 2
        };
        self.expect(open, "(")?;
        self.find(
            self.behind(open),
            &["{", ";", "requires", "ensures", "ghost"],
        )
    }

    /// The token behind the clauses that begin at one.
    pub(super) fn clauses_end(&self, mut i: usize) -> Result<usize, Fault> {
        loop {
            let open = match self.text(i) {
                "ghost" if self.is_word(i + 1) && self.text(i + 2) == ":" => i + 3,
                "requires" | "ensures" => {
                    let name = if self.text(i + 1) == "*" {
                        i + 2
                    } else {
                        i + 1
                    };
                    if self.is_word(name) { name + 1 } else { name }
                }
                "ghost" => return self.fault(i, "a ghost that is not known"),
                _ => return Ok(i),
            };
            if self.text(open) != "{" {
                return self.fault(i, "a clause without its braces");
            }
            i = self.behind(open);
        }
    }

    /// Takes the clauses that begin at a token out, and answers the token behind them.
    fn clauses(&mut self, i: usize) -> Result<usize, Fault> {
        let end = self.clauses_end(i)?;
        self.cut(i, end);
        Ok(end)
    }

    /// The clauses of a closure, whose body is a block.
    fn closure(&mut self, i: usize) -> Result<usize, Fault> {
        let mut head = i;
        while !matches!(self.before(head), "" | ";" | "{" | "}" | "(" | "[" | "|") {
            head = self.tokens[head - 1].pair.min(head - 1);
        }
        if self.before(head) != "|" {
            return self.fault(i, "a clause that belongs to no function");
        }
        let end = self.clauses(i)?;
        if self.text(end) == "{" {
            Ok(end)
        } else {
            self.fault(end, "a closure without its block")
        }
    }

    /// Puts the runtime that a function is handed, where it is handed nothing else, in its body.
    fn runtime(&mut self, i: usize, body: usize) -> Result<(), Fault> {
        let open = self.find(i + 2, &["("])?;
        if self.is(open + 2, &[":", "HostRuntime", ")"]) {
            self.cut(open + 1, open + 4);
            let (name, root) = (self.text(open + 1), self.way.root);
            self.insert_behind(
                body,
                &format!(" let {name} = {root}::shim::rt::HostRuntime;"),
            );
        }
        Ok(())
    }

    /// Strips the code, or the types, from one token up to another.
    pub(super) fn code(&mut self, mut i: usize, end: usize) -> Result<(), Fault> {
        let start = i;
        while i < end {
            let begins = i == start || matches!(self.before(i), "{" | "}" | ";");
            i = match self.text(i) {
                "#" => {
                    match self.attribute(i)? {
                        "derive_where" => {
                            return self.fault(i, "this is derived for items of modules alone");
                        }
                        "unsafe" => return self.fault(i, "an export within code"),
                        _ => {}
                    }
                    self.behind(i + 1)
                }
                "const" if self.text(i + 1) == "{" => i + 1,
                text if begins && ITEMS.contains(&text) && self.is_item(i, start) => {
                    self.item(i, Home::Body)?
                }
                _ if self.is_doc(i) && begins => self.item(i, Home::Body)?,
                _ if self.is_doc(i) => return self.fault(i, "documentation within code"),
                _ if self.is_word(i) => self.word(i)?,
                _ => i + 1,
            };
        }
        Ok(())
    }

    /// Whether an item begins at a word that items begin with: types have some of these words too.
    fn is_item(&self, i: usize, start: usize) -> bool {
        i > start || self.before(i) == "{"
    }

    /// Strips a word of code, with what belongs to it, and answers the token behind.
    fn word(&mut self, i: usize) -> Result<usize, Fault> {
        match self.text(i) {
            "requires" | "ensures" => return self.closure(i),
            "decreases" | "invariant" | "invariants" if self.is_clause_of_loop(i) => {
                return self.fault(i, "a clause that is not known");
            }
            "ghost" => return self.fault(i, "a ghost that is not known"),
            "unsafe" if self.text(i + 1) == "{" => self.cut(i, i + 1),
            "unsafe" => return self.fault(i, "this is not known to be safe"),
            "Drop" => return self.bound(i),
            "Formatter" => return self.shown(i),
            "clone" if self.before(i) == "." && self.is(i + 1, &["(", ")"]) => {
                self.put(i, i + 1, "try_clone");
            }
            "collect"
                if self.before(i) == "." && self.text(i + 1) == "(" && self.text(i + 2) != ")" =>
            {
                self.put(i, i + 1, "collect_in");
            }
            _ if self.is_macro(i) => return self.macro_call(i),
            name if Some(name) == self.writer => return self.argument(i),
            _ => self.path(i),
        }
        Ok(i + 1)
    }

    /// Whether braces stand behind a word, and a block behind those.
    fn is_clause_of_loop(&self, i: usize) -> bool {
        self.text(i + 1) == "{" && self.text(self.behind(i + 1)) == "{"
    }

    fn is_macro(&self, i: usize) -> bool {
        self.text(i + 1) == "!"
            && self.touches(i + 1)
            && matches!(self.text(i + 2), "(" | "[" | "{")
            && !WORDS_OF_RUST.contains(&self.text(i))
    }

    /// A macro: one that is handed the runtime or an allocator is the shim's. What it is handed is
    /// code.
    fn macro_call(&mut self, i: usize) -> Result<usize, Fault> {
        let (name, open) = (self.text(i), i + 2);
        let close = self.behind(open) - 1;
        let mut semicolon = open + 1;
        while semicolon < close && self.text(semicolon) != ";" {
            semicolon = self.behind(semicolon);
        }
        let is_in = self.text(open + 1) == "in" || !matches!(name, "format" | "vec");
        if HANDED.contains(&name) && semicolon < close && is_in {
            self.put(i, i + 1, &format!("{}::shim::{name}", self.way.root));
        } else if !MACROS.contains(&name) {
            return self.fault(i, "a macro that is not known");
        }
        Ok(i + 2)
    }

    /// Each type can be dropped: no bound says so.
    fn bound(&mut self, i: usize) -> Result<usize, Fault> {
        match (self.before(i), self.text(i + 1)) {
            ("+", _) => self.cut(i - 1, i + 1),
            (":", "+") if !self.is_behind(i, &[":", ":"]) => self.cut(i, i + 2),
            (":", _) if !self.is_behind(i, &[":", ":"]) => self.cut(i, i + 1),
            _ => return self.fault(i, "a bound of this form is not known"),
        }
        Ok(i + 1 + usize::from(self.before(i) == ":" && self.text(i + 1) == "+"))
    }

    /// A formatter names nothing that it writes to.
    fn shown(&mut self, i: usize) -> Result<usize, Fault> {
        if self.text(i + 1) != "<" {
            return Ok(i + 1);
        }
        if self.writer != Some(self.text(i + 2)) || self.text(i + 3) != ">" {
            return self.fault(i, "a formatter of this form is not known");
        }
        self.put(i + 2, i + 3, "'_");
        Ok(i + 4)
    }

    /// What a formatter writes to goes from the arguments of calls.
    fn argument(&mut self, i: usize) -> Result<usize, Fault> {
        match (self.before(i), self.text(i + 1)) {
            (",", ">") => self.cut(i - 1, i + 1),
            ("<", ">") if self.is_behind(i, &[":", ":", "<"]) => self.cut(i - 3, i + 2),
            ("<", ",") if self.is_behind(i, &[":", ":", "<"]) => self.cut(i, i + 2),
            _ => {
                return self.fault(
                    i,
                    "what a formatter writes to is named otherwise than by a call",
                );
            }
        }
        Ok(if matches!(self.before(i), ",") {
            i + 1
        } else {
            i + 2
        })
    }

    /// A path that begins with the name of a crate.
    fn path(&mut self, i: usize) {
        let is_start = !self.is_behind(i, &[":", ":"]) && self.before(i) != ".";
        if is_start && self.is(i + 1, &[":", ":"]) && self.text(i + 3) != "<" {
            if let Some(home) = self.home_of(self.text(i)) {
                self.put(i, i + 1, &home);
            }
        }
    }

    /// Where a crate lies.
    pub(super) fn home_of(&self, name: &str) -> Option<String> {
        let (root, own) = (self.way.root, self.way.own);
        match name {
            "crate" => Some(format!("{root}::{own}")),
            "std" | "core" | "alloc" => Some(format!("{root}::shim")),
            _ if self.way.uses.iter().any(|it| it == name) => Some(format!("{root}::{name}")),
            _ => None,
        }
    }
}
