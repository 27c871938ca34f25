//! Slices and vectors as inputs and outputs of bytes.

extern crate std;

use crate::order::Order;
use crate::register::Register;
use crate::slice::BitSlice;
use crate::slice_mut::BitSliceMut;
use crate::vec::BitVec;
use core::mem;
use std::io::{Read, Result, Write};

/// The first whole bytes, as many as there is room for: the first bit of a byte is its highest digit
/// of an `Msb0` slice, and its lowest of an `Lsb0` one. The slice has the bits behind them then, as
/// `&[u8]` does; fewer than 8 stay. Costs by words.
///
/// # Examples
///
/// ```
/// use std::io::Read;
/// use worghulen::{BitView, Msb0};
///
/// let (words, mut bytes) = ([0x1234_5678_u32], [0; 3]);
/// let mut bits = words.view_bits::<Msb0>().get(4..).unwrap();
/// bits.read_exact(&mut bytes)?;
/// assert_eq!((bytes, bits.len()), ([0x23, 0x45, 0x67], 4));
/// assert_eq!(bits.read(&mut bytes)?, 0);
/// # Ok::<(), std::io::Error>(())
/// ```
impl<T: Register, O: Order> Read for BitSlice<'_, T, O> {
    fn read(&mut self, bytes: &mut [u8]) -> Result<usize> {
        let count = bytes.len().min(self.len() / 8);
        let mut bytes = BitSlice::<u8, O>::from_slice_mut(&mut bytes[..count]);
        bytes.copy_from(self.start(8 * count))?;
        *self = self.rest(8 * count);
        Ok(count)
    }
}

/// Bytes in place of the first bits, as many as there are whole bytes: the first bit of a byte is its
/// highest digit in an `Msb0` slice, and its lowest in an `Lsb0` one. The slice has the bits behind
/// them then, as `&mut [u8]` does; fewer than 8 stay. Costs by words.
///
/// # Examples
///
/// ```
/// use std::io::Write;
/// use worghulen::{BitView, Msb0};
///
/// let mut words = [0_u32];
/// let mut bits = words.view_bits_mut::<Msb0>();
/// assert_eq!(bits.write(&[0x12, 0x34])?, 2);
/// assert_eq!(bits.write(&[0x56, 0x78, 0x9a])?, 2);
/// assert_eq!(words, [0x1234_5678]);
/// # Ok::<(), std::io::Error>(())
/// ```
impl<T: Register, O: Order> Write for BitSliceMut<'_, T, O> {
    fn write(&mut self, bytes: &[u8]) -> Result<usize> {
        let count = bytes.len().min(self.len() / 8);
        let source = BitSlice::<u8, O>::from_slice(&bytes[..count]);
        self.part_mut(..8 * count)?.copy_from(source)?;
        *self = mem::take(self).into_part(8 * count..)?;
        Ok(count)
    }

    fn flush(&mut self) -> Result<()> {
        Ok(())
    }
}

/// Bytes behind the last bit: the first bit of a byte is its highest digit in an `Msb0` vector, and
/// its lowest in an `Lsb0` one. Refused where there is no memory for them. Costs by words.
///
/// # Examples
///
/// ```
/// use std::io::Write;
/// use worghulen::{Msb0, bitvec};
///
/// let mut bits = bitvec![u16, Msb0; 1, 0];
/// bits.write_all(&[0x0f, 0xf0])?;
/// assert_eq!(bits.to_string(), "100000111111110000");
/// # Ok::<(), std::io::Error>(())
/// ```
impl<T: Register, O: Order> Write for BitVec<T, O> {
    fn write(&mut self, bytes: &[u8]) -> Result<usize> {
        let source = BitSlice::<u8, O>::from_slice(bytes);
        self.try_reserve(source.len())?;
        self.extend_from_bitslice(source);
        Ok(bytes.len())
    }

    fn flush(&mut self) -> Result<()> {
        Ok(())
    }
}
