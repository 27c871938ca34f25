//! Spans, requests and replies as the library has them, with what users of Rust ask of such types:
//! the sources do not derive it.
#![allow(clippy::derivable_impls)]

pub use crate::proved::bitvec_call::plain::{
    PlainReply as Reply, PlainRequest as Request, PlainSpan as Span,
};

use core::fmt::{Debug, Formatter, Result};
use core::hash::{Hash, Hasher};

impl Default for Span {
    fn default() -> Self {
        Self { start: 0, count: 0 }
    }
}

impl PartialEq for Span {
    fn eq(&self, other: &Self) -> bool {
        (self.start, self.count) == (other.start, other.count)
    }
}

impl Eq for Span {}

impl Hash for Span {
    fn hash<H: Hasher>(&self, state: &mut H) {
        (self.start, self.count).hash(state);
    }
}

impl Debug for Span {
    fn fmt(&self, f: &mut Formatter<'_>) -> Result {
        let Self { start, count } = self;
        f.debug_struct("Span")
            .field("start", start)
            .field("count", count)
            .finish()
    }
}

impl Default for Request {
    fn default() -> Self {
        Self {
            span: 0,
            a: 0,
            b: 0,
            count: 0,
            number: 0,
            command: 0,
        }
    }
}

impl Default for Reply {
    fn default() -> Self {
        Self { number: 0, kind: 0 }
    }
}

#[cfg(test)]
impl PartialEq for Reply {
    fn eq(&self, other: &Self) -> bool {
        (self.number, self.kind) == (other.number, other.kind)
    }
}

#[cfg(test)]
impl Debug for Reply {
    fn fmt(&self, f: &mut Formatter<'_>) -> Result {
        write!(f, "{} of kind {}", self.number, self.kind)
    }
}
