//! Ranges of bits.

use crate::refusal::Refusal;
use core::ops::{Bound, Range, RangeBounds};

/// How many bits a range has at most.
pub(crate) const MAX_BITS: usize = usize::MAX >> 3;

/// How many bits a number of words have, or the greatest number where that is none.
#[inline]
pub(crate) fn bits_of(words: usize, width: usize) -> usize {
    words.saturating_mul(width)
}

/// Where a range of `bits` starts and ends; `None` where that is past the greatest number.
#[inline]
pub(crate) fn ends(range: &impl RangeBounds<usize>, bits: usize) -> Option<(usize, usize)> {
    let start = match range.start_bound() {
        Bound::Included(&start) => Some(start),
        Bound::Excluded(&before) => before.checked_add(1),
        Bound::Unbounded => Some(0),
    };
    let end = match range.end_bound() {
        Bound::Included(&last) => last.checked_add(1),
        Bound::Excluded(&end) => Some(end),
        Bound::Unbounded => Some(bits),
    };
    start.zip(end)
}

/// Where a range starts, and how many bits it has; refused where these are not among `bits`.
#[inline]
pub(crate) fn within(
    range: impl RangeBounds<usize>,
    bits: usize,
) -> Result<(usize, usize), Refusal> {
    let outside = |index| Refusal::Outside { index, len: bits };
    let (start, end) = ends(&range, bits).ok_or(outside(usize::MAX))?;
    let len = length(start, end)?;
    if end > bits {
        return Err(outside(end));
    }
    Ok((start, len))
}

/// How many bits lie from a place on to before another.
#[inline]
pub(crate) fn length(start: usize, end: usize) -> Result<usize, Refusal> {
    let len = end.checked_sub(start).ok_or(Refusal::Reversed)?;
    if len > MAX_BITS {
        return Err(Refusal::TooLong);
    }
    Ok(len)
}

/// The range of `count` places from `start` on, of `len` bits.
#[inline]
pub(crate) fn run_of(start: usize, count: usize, len: usize) -> Result<Range<usize>, Refusal> {
    let index = usize::MAX;
    let end = start.checked_add(count);
    Ok(start..end.ok_or(Refusal::Outside { index, len })?)
}
