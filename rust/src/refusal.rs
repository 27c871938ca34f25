//! Why a call is refused.

use crate::range::MAX_BITS;
use core::error::Error;
use core::fmt::{self, Debug, Display, Formatter};

/// Why a call is refused. It has then changed nothing, but for the room of a
/// [`ManySpans`](crate::ManySpans).
///
/// # Examples
///
/// ```
/// use worghulen::{BitSlice, Lsb0, Refusal};
///
/// let refused = BitSlice::<u8, Lsb0>::new(&[0; 2], 3..17).unwrap_err();
/// assert_eq!(refused, Refusal::Outside { index: 17, len: 16 });
/// assert_eq!(refused.to_string(), "17 lies outside of 16 bits");
/// ```
#[derive(Clone, Copy, PartialEq, Eq, Hash, Debug)]
#[non_exhaustive]
pub enum Refusal {
    /// The order is none of the two. The types of this crate rule it out.
    NoOrder,
    /// A run has more than 64 spans.
    TooManySpans,
    /// A range has more than 2305843009213693951 bits.
    TooLong,
    /// A range ends past the last bit of its memory or slice, there is no bit at an index, or bits
    /// are to be moved by more places than there are.
    Outside {
        /// The index, one more than that of the range's last bit, or the number of places: the
        /// greatest `usize` where it is more.
        index: usize,
        /// How many bits there are.
        len: usize,
    },
    /// A number is to have more bits than its type, or more than 64.
    TooWide,
    /// Two spans of a run have a bit in common.
    Overlap,
    /// A run has not as many replies as requests, or room for the numbers of its spans.
    NoRoom,
    /// The command of a request is none. The types of this crate rule it out.
    NoCommand,
    /// Fewer bits are left of a stream than are to be read or written, or they end before a run or a
    /// code does.
    TooFew,
    /// The number of a code has more digits than its type, or a number more than the bits that it is
    /// to be stored or written in.
    TooLarge,
    /// A range starts past its end.
    Reversed,
    /// Two slices that are to have the same length have not.
    Lengths {
        /// How many bits the slice has that is to be edited.
        len: usize,
        /// How many the other has.
        other: usize,
    },
    /// A cut does not lie between two words, so that both parts would have bits of one word.
    SharedWord,
    /// A block that is to be freed is not in use.
    NotInUse,
    /// There is no memory for that many bits. What was to grow is as it was.
    NoMemory,
    /// The character of a text at this place, counted from 0, is neither `0` nor `1`.
    NotADigit(usize),
    /// The library answered with a number that this crate does not know: it is of another version.
    Unknown(u8),
}

impl Refusal {
    /// What the library's status says, which has no numbers: who asks for what the crate has not
    /// tested puts them in.
    pub(crate) const OUTSIDE: Self = Self::Outside { index: 0, len: 0 };

    /// What a status of the library says.
    #[inline]
    pub(crate) fn check(status: u8) -> Result<(), Self> {
        if status == 0 {
            Ok(())
        } else {
            Err(Self::of(status))
        }
    }

    /// What a status other than 0 says.
    #[cold]
    fn of(status: u8) -> Self {
        match status {
            1 => Self::NoOrder,
            2 => Self::TooManySpans,
            3 => Self::TooLong,
            4 => Self::OUTSIDE,
            5 => Self::TooWide,
            6 => Self::Overlap,
            7 => Self::NoRoom,
            8 => Self::NoCommand,
            9 => Self::TooFew,
            10 => Self::TooLarge,
            unknown => Self::Unknown(unknown),
        }
    }
}

impl Display for Refusal {
    fn fmt(&self, f: &mut Formatter<'_>) -> fmt::Result {
        f.write_str(match self {
            Self::NoOrder => "the order is none of the two",
            Self::TooManySpans => "a run has more than 64 spans",
            Self::TooLong => return write!(f, "a range has more than {MAX_BITS} bits"),
            Self::Outside { index, len } => {
                return write!(f, "{index} lies outside of {len} bits");
            }
            Self::TooWide => "a number is to have more bits than its type",
            Self::Overlap => "two spans of a run have a bit in common",
            Self::NoRoom => "a run has no room for all replies or spans",
            Self::NoCommand => "the command of a request is none",
            Self::TooFew => "fewer bits are left of a stream",
            Self::TooLarge => "a number has too many digits",
            Self::Reversed => "a range starts past its end",
            Self::Lengths { len, other } => {
                return write!(f, "a slice has {len} bits, and the other {other}");
            }
            Self::SharedWord => "a cut does not lie between two words",
            Self::NotInUse => "a block is not in use",
            Self::NoMemory => "there is no memory for that many bits",
            Self::NotADigit(at) => return write!(f, "character {at} is neither 0 nor 1"),
            Self::Unknown(number) => return write!(f, "the library answered {number}"),
        })
    }
}

impl Error for Refusal {}

/// Panics: what was asked of how many bits, why it is refused, and what to call instead.
#[cold]
#[track_caller]
pub(crate) fn refused(call: &str, asked: &dyn Debug, len: usize, why: Refusal) -> ! {
    panic!("{call} {asked:?} of {len} bits: {why} (`try_{call}` answers that)")
}

/// Makes of each call that answers a `Result` one that panics where it is refused.
macro_rules! or_panics {
    ([$($generics:tt)*] $type:ty: $(
        $(#[$attribute:meta])*
        $name:ident by $call:ident ($($arg:ident: $t:ty),*) $(-> $result:ty)?;
    )*) => {
        impl<$($generics)*> $type { $(
            $(#[$attribute])*
            ///
            /// # Panics
            ///
            #[doc = concat!(
                "Panics, with what was asked and the length, where [`", stringify!($call), "`](Self::",
                stringify!($call), ") is refused. No bit is changed then.",
            )]
            #[inline]
            #[track_caller]
            pub fn $name(&mut self, $($arg: $t),*) $(-> $result)? {
                match self.$call($($arg),*) {
                    Ok(answer) => answer,
                    Err(why) => {
                        crate::refusal::refused(stringify!($name), &($($arg),*), self.len(), why)
                    }
                }
            }
        )* }
    };
}

pub(crate) use or_panics;
