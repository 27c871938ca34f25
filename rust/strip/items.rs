//! Items: what stands before them, and which of their parts go.

use super::{Fault, Strip};

/// What an item lies in.
#[derive(Clone, Copy, PartialEq, Eq)]
pub(super) enum Home {
    /// A module, or a file.
    Module,
    /// A trait, or an implementation.
    Members,
    /// The body of a function.
    Body,
}

/// What stands before an item.
pub(super) struct Lead<'a> {
    /// The item's first token behind it.
    pub(super) next: usize,
    /// Whether no visibility is among it.
    pub(super) is_private: bool,
    /// Whether the item is what callers in C name.
    pub(super) is_export: bool,
    /// The traits that `derive_where` names.
    derived: Vec<&'a str>,
}

/// Attributes that mean the same in Rust.
const KEPT: [&str; 11] = [
    "allow",
    "cold",
    "deny",
    "doc",
    "expect",
    "ignore",
    "inline",
    "must_use",
    "non_exhaustive",
    "should_panic",
    "test",
];

/// What no import of a ghost has.
const ENDS: [&str; 8] = ["#", "enum", "fn", "ghost", "impl", "let", "pub", "use"];

impl<'a> Strip<'a> {
    /// Strips the items from one token up to another.
    pub(super) fn items(&mut self, mut i: usize, end: usize, home: Home) -> Result<(), Fault> {
        while i < end {
            i = if self.is_doc(i) && self.text(i).starts_with("//!") {
                self.put(i, i + 1, &self.text(i).replacen("//!", "//", 1));
                i + 1
            } else if self.is(i, &["#", "!", "[", "tactic"]) {
                let behind = self.behind(i + 2);
                self.cut(i, behind);
                behind
            } else {
                self.item(i, home)?
            };
        }
        Ok(())
    }

    /// Strips an item, and answers the token behind it.
    pub(super) fn item(&mut self, start: usize, home: Home) -> Result<usize, Fault> {
        let lead = self.lead(start)?;
        let i = lead.next;
        let end = match self.text(i) {
            "ghost" => return self.ghost(start, i),
            "struct" | "enum" => self.data(i)?,
            "trait" => self.members(i)?,
            "impl" => self.implementation(start, i)?,
            "unsafe" if self.text(i + 1) == "impl" => {
                self.cut(i, i + 1);
                self.implementation(start, i + 1)?
            }
            "fn" | "unsafe" => self.function(&lead, home)?,
            "final" if home == Home::Members => self.function(&lead, home)?,
            "extern" if lead.is_export => self.function(&lead, home)?,
            "const" if matches!(self.text(i + 1), "fn" | "unsafe") => self.function(&lead, home)?,
            "mod" => self.module(i)?,
            "use" => self.import(i)?,
            "const" | "static" | "type" => self.value(i)?,
            _ => return self.fault(i, "an item that is not known"),
        };
        if !lead.derived.is_empty() {
            let written = self.derived(i, &lead.derived)?;
            self.insert_behind(end - 1, &written);
        }
        Ok(end)
    }

    /// Reads the documentation, the attributes and the visibility before an item.
    pub(super) fn lead(&mut self, mut i: usize) -> Result<Lead<'a>, Fault> {
        let (mut is_export, mut derived) = (false, Vec::new());
        self.is_in_example = false;
        while self.is_doc(i) || self.text(i) == "#" {
            if self.is_doc(i) {
                self.doc(i)?;
                i += 1;
                continue;
            }
            match self.attribute(i)? {
                "derive_where" => derived.extend(self.names_within(i + 3)),
                "unsafe" => is_export = true,
                _ => {}
            }
            i = self.behind(i + 1);
        }
        let next = self.lead_end(i);
        if is_export && !self.is(next, &["extern", "\"C\"", "fn"]) {
            return self.fault(next, "an export that is no function");
        }
        Ok(Lead {
            next,
            is_private: next == i,
            is_export,
            derived,
        })
    }

    /// The token behind the documentation, the attributes and the visibility before an item.
    pub(super) fn lead_end(&self, mut i: usize) -> usize {
        loop {
            i = match self.text(i) {
                "#" => self.behind(i + 1),
                "pub" if self.text(i + 1) == "(" => self.behind(i + 1),
                "pub" => i + 1,
                _ if self.is_doc(i) => i + 1,
                _ => return i,
            };
        }
    }

    /// Documentation stays, and says of its examples that they are texts.
    fn doc(&mut self, i: usize) -> Result<(), Fault> {
        let text = self.text(i);
        if text.starts_with("//!") {
            return self.fault(i, "documentation of a module behind its items");
        }
        if let Some(fence) = text[3..].trim_start().strip_prefix("```") {
            self.is_in_example = !self.is_in_example;
            match fence {
                "" if self.is_in_example => self.insert_behind(i, "text"),
                "" | "text" => {}
                _ => return self.fault(i, "an example of this kind is not known"),
            }
        }
        Ok(())
    }

    /// Reads an attribute, and answers its name.
    pub(super) fn attribute(&mut self, i: usize) -> Result<&'a str, Fault> {
        let (name, end) = (self.text(i + 2), self.behind(i + 1));
        if self.text(i + 1) != "[" {
            return self.fault(i, "an attribute that is not known");
        }
        match name {
            "tactic" => self.cut(i, end),
            "derive" if self.are_names(i + 3) => self.derive(i, end),
            "derive_where" if self.are_names(i + 3) => self.cut(i, end),
            "unsafe" if self.is(i + 3, &["(", "no_mangle", ")", "]"]) => self.cut(i, end),
            "cfg" if self.is(i + 3, &["(", "test", ")", "]"]) => {}
            "repr"
                if self.is(i + 3, &["(", "C", ")", "]"])
                    || self.is(i + 3, &["(", "transparent", ")", "]"]) => {}
            _ if KEPT.contains(&name) => {}
            _ => return self.fault(i + 2, "an attribute that is not known"),
        }
        Ok(name)
    }

    /// Whether a list between parentheses has names and nothing else.
    fn are_names(&self, open: usize) -> bool {
        let mut all = open + 1..self.behind(open) - 1;
        self.text(open) == "(" && all.all(|i| self.is_word(i) || self.text(i) == ",")
    }

    /// The names that a list between parentheses has.
    fn names_within(&self, open: usize) -> Vec<&'a str> {
        (open + 1..self.behind(open) - 1)
            .map(|i| self.text(i))
            .filter(|text| *text != ",")
            .collect()
    }

    /// Every type of Rust can be dropped: no derive says so.
    fn derive(&mut self, i: usize, end: usize) {
        let names = self.names_within(i + 3);
        if names.contains(&"Drop") {
            let left: Vec<&str> = names.into_iter().filter(|name| *name != "Drop").collect();
            let by = if left.is_empty() {
                String::new()
            } else {
                format!("#[derive({})]", left.join(", "))
            };
            self.put(i, end, &by);
        }
    }

    /// A ghost: an import, a field or a member. What stands before it goes with it.
    pub(super) fn ghost(&mut self, start: usize, i: usize) -> Result<usize, Fault> {
        let end = self.ghost_end(i)?;
        self.cut(start, end);
        Ok(end)
    }

    /// The token behind a ghost.
    fn ghost_end(&self, i: usize) -> Result<usize, Fault> {
        if self.text(i + 1) == "use" {
            let end = self.find(i + 2, &[";"])? + 1;
            // (one without its end would take what is behind it along)
            return match (i + 2..end).find(|at| ENDS.contains(&self.text(*at))) {
                Some(at) => self.fault(at, "a ghost that has another end"),
                None => Ok(end),
            };
        }
        if !self.is_word(i + 1) || !(self.is(i + 2, &[":", "{"]) || self.is(i + 2, &["=", "{"])) {
            return self.fault(i + 1, "a ghost that is not known");
        }
        let mut end = self.behind(i + 3);
        if self.text(i + 2) == ":" && self.is(end, &["=", "{"]) {
            end = self.behind(end + 1);
        }
        match self.text(end) {
            ";" | "," => Ok(end + 1),
            "}" => Ok(end),
            _ => self.fault(end, "a ghost that has another end"),
        }
    }

    fn module(&mut self, i: usize) -> Result<usize, Fault> {
        match self.text(i + 2) {
            ";" => Ok(i + 3),
            "{" => {
                let end = self.behind(i + 2);
                self.items(i + 3, end - 1, Home::Module)?;
                Ok(end)
            }
            _ => self.fault(i, "a module that is not known"),
        }
    }

    /// An import: the crate that its path begins with.
    fn import(&mut self, i: usize) -> Result<usize, Fault> {
        let end = self.find(i + 1, &[";"])? + 1;
        if !self.is_word(i + 1) {
            return self.fault(i + 1, "an import of this form is not known");
        }
        if let Some(home) = self.home_of(self.text(i + 1)) {
            self.put(i + 1, i + 2, &home);
        }
        Ok(end)
    }

    /// An item that ends with a semicolon.
    fn value(&mut self, i: usize) -> Result<usize, Fault> {
        let mut end = i + 1;
        while self.text(end) != ";" {
            if end >= self.tokens.len() {
                return self.fault(i, "an item without its end");
            }
            end = self.behind(end);
        }
        self.code(i + 1, end)?;
        Ok(end + 1)
    }

    /// A struct or an enum: its fields but the ghosts.
    fn data(&mut self, i: usize) -> Result<usize, Fault> {
        let body = self.find(i + 2, &["{", "(", ";"])?;
        self.code(i + 2, body)?;
        let end = self.behind(body);
        match self.text(body) {
            "{" => self.fields(body)?,
            "(" => {
                self.code(body + 1, end - 1)?;
                return self.expect(end, ";");
            }
            _ => {}
        }
        Ok(end)
    }

    /// The fields of a struct, or the variants of an enum, between braces.
    fn fields(&mut self, open: usize) -> Result<(), Fault> {
        let close = self.behind(open) - 1;
        let mut i = open + 1;
        while i < close {
            let lead = self.lead(i)?;
            if !lead.derived.is_empty() {
                return self.fault(i, "an attribute that is not known at a field");
            }
            if self.text(lead.next) == "ghost" {
                i = self.ghost(i, lead.next)?;
                continue;
            }
            let end = self.comma(lead.next, close)?;
            match self.text(lead.next + 1) {
                "{" => self.fields(lead.next + 1)?,
                _ => self.code(lead.next, end)?,
            }
            i = end + 1;
        }
        Ok(())
    }

    /// A trait or an implementation: its members.
    fn members(&mut self, i: usize) -> Result<usize, Fault> {
        let body = self.find(i + 1, &["{"])?;
        self.code(i + 1, body)?;
        let end = self.behind(body);
        self.items(body + 1, end - 1, Home::Members)?;
        Ok(end)
    }

    /// An implementation: those of some traits are none in Rust, or others.
    fn implementation(&mut self, start: usize, i: usize) -> Result<usize, Fault> {
        let head = if self.text(i + 1) == "<" {
            self.angle(i + 1)? + 1
        } else {
            i + 1
        };
        let body = self.find(head, &["{"])?;
        let end = self.behind(body);
        match self.text(head) {
            "Model" if self.text(head + 1) == "for" => {
                self.model(body)?;
                self.cut(start, end);
            }
            "Drop" if self.text(head + 1) == "for" => {
                self.loans(body)?;
                self.cut(start, end);
            }
            "Clone" if self.text(head + 1) == "for" => {
                self.members(i)?;
                self.cloned(i, head, body)?;
            }
            _ => return self.members(i),
        }
        Ok(end)
    }

    /// The first member that is no ghost, or the end.
    fn past_ghosts(&self, mut i: usize) -> Result<usize, Fault> {
        while self.text(self.lead_end(i)) == "ghost" {
            i = self.ghost_end(self.lead_end(i))?;
        }
        Ok(self.lead_end(i))
    }

    /// What a contract sees of a type is ghosts alone.
    fn model(&self, body: usize) -> Result<(), Fault> {
        let (i, close) = (self.past_ghosts(body + 1)?, self.behind(body) - 1);
        if i == close {
            Ok(())
        } else {
            self.fault(i, "a model with more than ghosts")
        }
    }

    /// A drop that ends loans alone takes its value apart, and leaves each part.
    fn loans(&self, body: usize) -> Result<(), Fault> {
        let (i, close) = (self.past_ghosts(body + 1)?, self.behind(body) - 1);
        let inner = self.clauses_end(self.signature(i)?)?;
        let pattern = inner + 3;
        let end = self.behind(pattern);
        let is_left = |(from, upto): (usize, usize)| match self.text(pattern) {
            "{" => upto == from + 3 && self.is(from + 1, &[":", "_"]),
            "(" => upto == from + 1 && self.text(from) == "_",
            _ => false,
        };
        let is_known = self.is(i, &["fn", "drop", "(", "self", ")"])
            && self.is(inner, &["{", "let"])
            && self.is(end, &["=", "self", ";", "}"])
            && end + 4 == close
            && self.parts(pattern, end - 1)?.into_iter().all(is_left);
        if is_known {
            Ok(())
        } else {
            self.fault(i, "a drop that does more than to end loans")
        }
    }

    /// The implementation of `Clone`: in Rust it answers no `Result`.
    fn cloned(&mut self, i: usize, head: usize, body: usize) -> Result<(), Fault> {
        let from = self.past_ghosts(body + 1)?;
        let signature = [
            "fn",
            "clone",
            "(",
            "&",
            "self",
            ")",
            "-",
            ">",
            "Result",
            "<",
            "Self",
            ",",
            "AllocError",
            ">",
        ];
        if !self.is(from, &signature) {
            return self.fault(from, "a `clone` of this form is not known");
        }
        let inner = self.clauses_end(from + signature.len())?;
        if self.is(inner, &["{", "Ok", "(", "*", "self", ")", "}"]) {
            self.put(from + 8, from + 14, "Self");
            self.cut(inner + 1, inner + 3);
            self.cut(inner + 5, inner + 6);
            return Ok(());
        }
        let (generics, kind) = (self.rendered(i + 1, head)?, self.rendered(head + 2, body)?);
        let plain = "fn clone(&self) -> Self { self.try_clone().expect(\"memory for a copy\") }";
        self.insert_before(
            from,
            &format!("{plain} }} impl{generics} {kind} {{ pub(crate) "),
        );
        self.put(from + 1, from + 2, "try_clone");
        Ok(())
    }
}
