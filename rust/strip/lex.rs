//! Tokens of a source, and which brackets belong together.

use super::Fault;

/// What a token is.
#[derive(Clone, Copy, PartialEq, Eq, Debug)]
pub enum Kind {
    /// A comment that documents what follows it, `///`, or what it lies in, `//!`.
    Doc,
    /// A name or a word of the language.
    Word,
    /// A name of a lifetime.
    Life,
    /// A number, a text or a character.
    Literal,
    /// A bracket, or any other character.
    Sign,
}

/// A token: where it lies, in bytes.
#[derive(Clone, Copy, PartialEq, Eq, Debug)]
pub struct Token {
    /// What it is.
    pub kind: Kind,
    /// Its first byte.
    pub from: usize,
    /// The byte behind its last.
    pub upto: usize,
    /// The token of the other bracket; of no bracket, its own number.
    pub pair: usize,
}

/// The tokens that are read, and the brackets that are open.
struct Lexer<'a> {
    text: &'a str,
    tokens: Vec<Token>,
    open: Vec<usize>,
}

/// The tokens of a text.
///
/// It refuses a bracket, a text or a comment without its other end, and what it does not know:
/// comments that document by `/**` or `/*!`, and names that begin with `r#`.
pub fn lex(text: &str) -> Result<Vec<Token>, Fault> {
    let mut lexer = Lexer {
        text,
        tokens: Vec::new(),
        open: Vec::new(),
    };
    let mut at = 0;
    while let Some(first) = text[at..].chars().next() {
        at = lexer.step(at, first)?;
    }
    match lexer.open.pop() {
        Some(open) => Err(Fault::new(
            lexer.tokens[open].from,
            "a bracket that is not closed",
        )),
        None => Ok(lexer.tokens),
    }
}

impl Lexer<'_> {
    /// Reads what begins at a byte, and answers where it ends.
    fn step(&mut self, at: usize, first: char) -> Result<usize, Fault> {
        let rest = &self.text[at..];
        if first.is_whitespace() {
            return Ok(at + first.len_utf8());
        }
        if rest.starts_with("//") {
            let end = at + rest.find('\n').unwrap_or(rest.len());
            if rest.starts_with("//!") || rest.starts_with("///") && !rest.starts_with("////") {
                self.push(Kind::Doc, at, end);
            }
            return Ok(end);
        }
        if rest.starts_with("/*") {
            return comment(rest)
                .map(|length| at + length)
                .map_err(|what| Fault::new(at, what));
        }
        let literal = text_length(rest).and_then(|length| match length {
            None => character(rest),
            Some(length) => Ok(Some((Kind::Literal, length))),
        });
        let (kind, length) = match literal.map_err(|what| Fault::new(at, what))? {
            Some(found) => found,
            None if is_word(first) => {
                let kind = if first.is_ascii_digit() {
                    Kind::Literal
                } else {
                    Kind::Word
                };
                (kind, rest.find(|c| !is_word(c)).unwrap_or(rest.len()))
            }
            None => (Kind::Sign, first.len_utf8()),
        };
        self.push(kind, at, at + length);
        if kind == Kind::Sign {
            self.bracket(at, first)?;
        }
        Ok(at + length + self.primes(kind, at + length))
    }

    fn push(&mut self, kind: Kind, from: usize, upto: usize) {
        let pair = self.tokens.len();
        self.tokens.push(Token {
            kind,
            from,
            upto,
            pair,
        });
    }

    /// Reads the primes that a name of a contract ends with, which begin no character.
    fn primes(&mut self, kind: Kind, at: usize) -> usize {
        if kind != Kind::Word {
            return 0;
        }
        let count = self.text[at..]
            .bytes()
            .take_while(|byte| *byte == b'\'')
            .count();
        for prime in 0..count {
            self.push(Kind::Sign, at + prime, at + prime + 1);
        }
        count
    }

    /// Joins the last token, where it is a bracket, with its other.
    fn bracket(&mut self, at: usize, bracket: char) -> Result<(), Fault> {
        let number = self.tokens.len() - 1;
        let opens = match bracket {
            '(' | '[' | '{' => {
                self.open.push(number);
                return Ok(());
            }
            ')' => "(",
            ']' => "[",
            '}' => "{",
            _ => return Ok(()),
        };
        let other = self
            .open
            .pop()
            .ok_or_else(|| Fault::new(at, "a bracket that closes nothing"))?;
        if !self.text[self.tokens[other].from..].starts_with(opens) {
            return Err(Fault::new(at, "a bracket that closes one of another kind"));
        }
        self.tokens[other].pair = number;
        self.tokens[number].pair = other;
        Ok(())
    }
}

fn is_word(c: char) -> bool {
    c == '_' || c.is_alphanumeric()
}

/// The length of a comment, which may have others in it.
fn comment(rest: &str) -> Result<usize, &'static str> {
    if (rest.starts_with("/**") && !rest.starts_with("/**/")) || rest.starts_with("/*!") {
        return Err("documentation of this form is not known");
    }
    let (mut depth, mut at) = (0_usize, 0);
    while at < rest.len() {
        let length = match rest[at..].get(..2) {
            Some("/*") => {
                depth += 1;
                2
            }
            Some("*/") => {
                depth -= 1;
                2
            }
            _ => rest[at..].chars().next().map_or(1, char::len_utf8),
        };
        at += length;
        if depth == 0 {
            return Ok(at);
        }
    }
    Err("a comment without its end")
}

/// The length of a text, of bytes or raw too; `None` where there is none.
fn text_length(rest: &str) -> Result<Option<usize>, &'static str> {
    let marks = rest
        .bytes()
        .take_while(|byte| matches!(byte, b'b' | b'c' | b'r'))
        .count();
    let prefix = &rest[..marks];
    if !matches!(prefix, "" | "b" | "c" | "r" | "br" | "cr") {
        return Ok(None);
    }
    let hashes = rest[marks..]
        .bytes()
        .take_while(|byte| *byte == b'#')
        .count();
    let is_raw = prefix.ends_with('r');
    let body = marks + hashes + 1;
    if !rest[marks + hashes..].starts_with('"') {
        let is_name = is_raw && hashes == 1 && rest[body - 1..].starts_with(is_word);
        return if is_name {
            Err("a name of this form is not known")
        } else {
            Ok(None)
        };
    }
    if is_raw {
        let end = format!("\"{}", "#".repeat(hashes));
        let length = rest[body..].find(&end).ok_or("a text without its end")?;
        return Ok(Some(body + length + end.len()));
    }
    if hashes > 0 {
        return Ok(None);
    }
    let mut is_escaped = false;
    for (at, c) in rest[body..].char_indices() {
        match c {
            _ if is_escaped => is_escaped = false,
            '\\' => is_escaped = true,
            '"' => return Ok(Some(body + at + 1)),
            _ => {}
        }
    }
    Err("a text without its end")
}

/// The kind and the length of a character or a lifetime; `None` where there is neither.
fn character(rest: &str) -> Result<Option<(Kind, usize)>, &'static str> {
    let body = match rest {
        _ if rest.starts_with('\'') => 1,
        _ if rest.starts_with("b'") => 2,
        _ => return Ok(None),
    };
    let mut chars = rest[body..].chars();
    let first = chars.next().ok_or("a character without its end")?;
    if first == '\\' {
        let behind = body + 1 + chars.next().map_or(0, char::len_utf8);
        let end = rest[behind..]
            .find('\'')
            .ok_or("a character without its end")?;
        return Ok(Some((Kind::Literal, behind + end + 1)));
    }
    if chars.next() == Some('\'') {
        return Ok(Some((Kind::Literal, body + first.len_utf8() + 1)));
    }
    if body == 1 && is_word(first) {
        let length = rest[1..].find(|c| !is_word(c)).unwrap_or(rest.len() - 1);
        return Ok(Some((Kind::Life, 1 + length)));
    }
    // (a name `b` of a contract, with primes)
    if body == 2 {
        Ok(None)
    } else {
        Err("a character without its end")
    }
}
