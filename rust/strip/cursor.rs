//! Looks at tokens, finds ends, and notes edits.

use super::lex::Kind;
use super::{Edit, Fault, Strip};

impl<'a> Strip<'a> {
    /// The text of a token, empty behind the last.
    pub(super) fn text(&self, i: usize) -> &'a str {
        self.tokens
            .get(i)
            .map_or("", |token| &self.text[token.from..token.upto])
    }

    /// The text of the token before.
    pub(super) fn before(&self, i: usize) -> &'a str {
        i.checked_sub(1).map_or("", |i| self.text(i))
    }

    /// Whether the tokens from `i` on are these.
    pub(super) fn is(&self, i: usize, texts: &[&str]) -> bool {
        texts
            .iter()
            .enumerate()
            .all(|(n, text)| self.text(i + n) == *text)
    }

    /// Whether the tokens before `i` are these.
    pub(super) fn is_behind(&self, i: usize, texts: &[&str]) -> bool {
        i.checked_sub(texts.len())
            .is_some_and(|from| self.is(from, texts))
    }

    pub(super) fn is_word(&self, i: usize) -> bool {
        self.tokens
            .get(i)
            .is_some_and(|token| token.kind == Kind::Word)
    }

    pub(super) fn is_doc(&self, i: usize) -> bool {
        self.tokens
            .get(i)
            .is_some_and(|token| token.kind == Kind::Doc)
    }

    /// Whether a token stands behind another with nothing between them.
    pub(super) fn touches(&self, i: usize) -> bool {
        i > 0 && i < self.tokens.len() && self.tokens[i - 1].upto == self.tokens[i].from
    }

    /// The token behind this one, or behind the bracket that this one opens.
    pub(super) fn behind(&self, i: usize) -> usize {
        self.tokens.get(i).map_or(i, |token| token.pair.max(i)) + 1
    }

    /// Answers what is not known, at a token.
    pub(super) fn fault<T>(&self, i: usize, what: &str) -> Result<T, Fault> {
        let at = self
            .tokens
            .get(i)
            .map_or(self.text.len(), |token| token.from);
        Err(Fault::new(at, &format!("{what}: `{}`", self.text(i))))
    }

    /// The token behind one that has to be this.
    pub(super) fn expect(&self, i: usize, text: &str) -> Result<usize, Fault> {
        if self.text(i) == text {
            Ok(i + 1)
        } else {
            self.fault(i, &format!("`{text}` is wanted here"))
        }
    }

    /// The `>` of a `<`.
    pub(super) fn angle(&self, open: usize) -> Result<usize, Fault> {
        let mut i = self.expect(open, "<")?;
        while i < self.tokens.len() {
            match self.text(i) {
                ">" if !matches!(self.before(i), "-" | "=") => return Ok(i),
                "<" => i = self.angle(i)? + 1,
                ";" | ")" | "]" | "}" => break,
                _ => i = self.behind(i),
            }
        }
        self.fault(open, "an angle that is not closed")
    }

    /// The first token from `i` on that is one of these, outside of brackets and angles.
    pub(super) fn find(&self, mut i: usize, texts: &[&str]) -> Result<usize, Fault> {
        let start = i;
        while i < self.tokens.len() {
            match self.text(i) {
                text if texts.contains(&text) => return Ok(i),
                "<" => i = self.angle(i)? + 1,
                _ => i = self.behind(i),
            }
        }
        self.fault(start, "what has no end")
    }

    /// The comma behind a part of a list, or the list's end.
    pub(super) fn comma(&self, i: usize, end: usize) -> Result<usize, Fault> {
        let mut at = i;
        while at < end && self.text(at) != "," {
            at = if self.text(at) == "<" {
                self.angle(at)? + 1
            } else {
                self.behind(at)
            };
        }
        Ok(at.min(end))
    }

    /// The beginnings of the parts of a list between brackets or angles, and the ends of each.
    pub(super) fn parts(&self, open: usize, close: usize) -> Result<Vec<(usize, usize)>, Fault> {
        let mut parts = Vec::new();
        let mut i = open + 1;
        while i < close {
            let end = self.comma(i, close)?;
            parts.push((i, end));
            i = end + 1;
        }
        Ok(parts)
    }

    /// The text of the tokens from one up to another.
    pub(super) fn slice(&self, from: usize, upto: usize) -> &'a str {
        if from < upto {
            &self.text[self.tokens[from].from..self.tokens[upto - 1].upto]
        } else {
            ""
        }
    }

    /// What comes of the tokens from one up to another, on one line.
    pub(super) fn rendered(&mut self, from: usize, upto: usize) -> Result<String, Fault> {
        if from >= upto {
            return Ok(String::new());
        }
        let written = self.written(self.tokens[from].from, self.tokens[upto - 1].upto)?;
        Ok(written.replace('\n', " "))
    }

    /// The text from a byte up to another with its edits. The line ends of what is replaced stay.
    pub(super) fn written(&mut self, start: usize, end: usize) -> Result<String, Fault> {
        // (edits of one place stay in the order in which they were noted)
        self.edits.sort_by_key(|edit| (edit.from, edit.upto));
        let mut out = String::new();
        let mut at = start;
        for Edit { from, upto, by } in self
            .edits
            .iter()
            .filter(|edit| start <= edit.from && edit.upto <= end)
        {
            if *from < at {
                return Err(Fault::new(*from, "two edits meet here"));
            }
            out.push_str(&self.text[at..*from]);
            out.push_str(by);
            out.extend(self.text[*from..*upto].chars().filter(|c| *c == '\n'));
            at = *upto;
        }
        out.push_str(&self.text[at..end]);
        Ok(out)
    }

    /// Puts a text in the place of the tokens from one up to another.
    pub(super) fn put(&mut self, from: usize, upto: usize, by: &str) {
        let (from, upto) = (self.tokens[from].from, self.tokens[upto - 1].upto);
        self.edits.push(Edit {
            from,
            upto,
            by: by.to_owned(),
        });
    }

    /// Takes the tokens from one up to another out, with the edits that are noted within them.
    pub(super) fn cut(&mut self, from: usize, upto: usize) {
        if from < upto {
            let (start, end) = (self.tokens[from].from, self.tokens[upto - 1].upto);
            self.edits
                .retain(|edit| edit.upto <= start || end <= edit.from);
            self.put(from, upto, "");
        }
    }

    /// Puts a text before a token.
    pub(super) fn insert_before(&mut self, i: usize, by: &str) {
        let at = self
            .tokens
            .get(i)
            .map_or(self.text.len(), |token| token.from);
        self.edits.push(Edit {
            from: at,
            upto: at,
            by: by.to_owned(),
        });
    }

    /// Puts a text behind a token.
    pub(super) fn insert_behind(&mut self, i: usize, by: &str) {
        let at = self.tokens[i].upto;
        self.edits.push(Edit {
            from: at,
            upto: at,
            by: by.to_owned(),
        });
    }
}
