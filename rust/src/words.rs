//! Words of a width that is known when the program runs, and those that a range has whole.

use crate::register::Register;

/// Whether `len` bits are handed to the library as they are: to take the whole words of fewer than
/// 64 words out would cost more.
#[inline]
pub(crate) fn are_few<T: Register>(len: usize) -> bool {
    len < 64 * T::BITS
}

/// How many of some bits from a place on lie before the first word that is theirs alone, and how
/// many such words there are; `None` where these bits are few.
#[inline]
pub(crate) fn whole<T: Register>(start: usize, len: usize) -> Option<(usize, usize)> {
    if are_few::<T>(len) {
        return None;
    }
    let head = start.next_multiple_of(T::BITS) - start;
    Some((head, (len - head) / T::BITS))
}

/// Words, by their width.
pub enum Words<'a> {
    U8(&'a [u8]),
    U16(&'a [u16]),
    U32(&'a [u32]),
    U64(&'a [u64]),
    Usize(&'a [usize]),
}

/// Each returns the words where they are of its type.
macro_rules! of_types {
    ($($name:ident $case:ident $word:ident;)*) => {
        impl<'a> Words<'a> {
            $(#[inline]
            pub(crate) fn $name(&self) -> Option<&'a [$word]> {
                match self {
                    Self::$case(words) => Some(words),
                    _ => None,
                }
            })*
        }
    };
}

of_types! {
    u8s U8 u8;
    u16s U16 u16;
    u32s U32 u32;
    u64s U64 u64;
    usizes Usize usize;
}
