//! Bits in the formats of serde: a text of zeros and ones, as `Display` writes it and `parse` reads
//! it. Of the package in `rust/serde`, since the one at the top has no dependency.

use crate::array::BitArray;
#[cfg(feature = "alloc")]
use crate::boxed::BitBox;
use crate::order::Order;
use crate::refusal::Refusal;
use crate::register::Register;
use crate::slice::BitSlice;
use crate::slice_mut::BitSliceMut;
#[cfg(feature = "alloc")]
use crate::vec::BitVec;
use ::serde::de::{Deserialize, Deserializer, Error, Visitor};
use ::serde::ser::{Serialize, Serializer};
use core::fmt::{self, Formatter};
use core::marker::PhantomData;

macro_rules! written {
    ([$($generics:tt)*] $type:ty) => {
        /// A text of the bits in order, each as 0 or 1, whatever the words and the order are. Costs
        /// by bits.
        impl<$($generics)*> Serialize for $type {
            fn serialize<S: Serializer>(&self, serializer: S) -> Result<S::Ok, S::Error> {
                serializer.collect_str(self)
            }
        }
    };
}

written! { [T: Register, O: Order] BitSlice<'_, T, O> }
written! { [T: Register, O: Order] BitSliceMut<'_, T, O> }
written! { [T: Register, O: Order, const W: usize] BitArray<[T; W], O> }
#[cfg(feature = "alloc")]
written! { [T: Register, O: Order] BitVec<T, O> }
#[cfg(feature = "alloc")]
written! { [T: Register, O: Order] BitBox<T, O> }

/// What makes bits of a text.
struct Text<B>(PhantomData<B>);

/// The bits of such a text, of any number, in words of any type and order. What else stands there,
/// or memory that is refused, is an error of the format. Costs by bits.
///
/// # Examples
///
/// ```
/// use serde::de::value::{Error, StrDeserializer};
/// use serde::{Deserialize, de::IntoDeserializer};
/// use worghulen::{BitVec, Lsb0, bits};
///
/// let text: StrDeserializer<Error> = "0110".into_deserializer();
/// assert_eq!(BitVec::<u8, Lsb0>::deserialize(text)?, bits![0, 1, 1, 0]);
/// # Ok::<(), Error>(())
/// ```
#[cfg(feature = "alloc")]
impl<'de, T: Register, O: Order> Deserialize<'de> for BitVec<T, O> {
    fn deserialize<D: Deserializer<'de>>(deserializer: D) -> Result<Self, D::Error> {
        deserializer.deserialize_str(Text::<Self>(PhantomData))
    }
}

#[cfg(feature = "alloc")]
impl<T: Register, O: Order> Visitor<'_> for Text<BitVec<T, O>> {
    type Value = BitVec<T, O>;

    fn expecting(&self, f: &mut Formatter<'_>) -> fmt::Result {
        f.write_str("a text of zeros and ones")
    }

    fn visit_str<E: Error>(self, text: &str) -> Result<Self::Value, E> {
        text.parse().map_err(E::custom)
    }
}

/// As a [`BitVec`].
#[cfg(feature = "alloc")]
impl<'de, T: Register, O: Order> Deserialize<'de> for BitBox<T, O> {
    fn deserialize<D: Deserializer<'de>>(deserializer: D) -> Result<Self, D::Error> {
        BitVec::deserialize(deserializer).map(Self::from)
    }
}

/// The bits of a text of as many as the array has. Another is an error of the format. Costs by bits.
///
/// # Examples
///
/// ```
/// use serde::de::value::{Error, StrDeserializer};
/// use serde::{Deserialize, de::IntoDeserializer};
/// use worghulen::{BitArray, Msb0};
///
/// let text: StrDeserializer<Error> = "01100000".into_deserializer();
/// assert_eq!(BitArray::<[u8; 1], Msb0>::deserialize(text)?.into_inner(), [0x60]);
/// # Ok::<(), Error>(())
/// ```
impl<'de, T: Register, O: Order, const W: usize> Deserialize<'de> for BitArray<[T; W], O> {
    fn deserialize<D: Deserializer<'de>>(deserializer: D) -> Result<Self, D::Error> {
        deserializer.deserialize_str(Text::<Self>(PhantomData))
    }
}

impl<T: Register, O: Order, const W: usize> Visitor<'_> for Text<BitArray<[T; W], O>> {
    type Value = BitArray<[T; W], O>;

    fn expecting(&self, f: &mut Formatter<'_>) -> fmt::Result {
        write!(f, "a text of {} zeros and ones", W * T::BITS)
    }

    fn visit_str<E: Error>(self, text: &str) -> Result<Self::Value, E> {
        let mut bits = BitArray::ZERO;
        for (at, digit) in text.chars().enumerate() {
            let Some(mut bit) = bits.get_mut(at) else {
                break;
            };
            *bit = match digit {
                '0' => false,
                '1' => true,
                _ => return Err(E::custom(Refusal::NotADigit(at))),
            };
        }
        if text.len() == bits.len() {
            Ok(bits)
        } else {
            Err(E::invalid_length(text.len(), &self))
        }
    }
}
