//! Vectors, and what is written to one.

pub use super::super::base::vec::Vec;
use super::alloc::Allocator;
use std::io;

/// Bytes that are written to it go behind the last.
impl<A: Allocator> io::Write for Vec<u8, A> {
    fn write(&mut self, bytes: &[u8]) -> io::Result<usize> {
        self.extend_from_slice(bytes)?;
        Ok(bytes.len())
    }

    fn flush(&mut self) -> io::Result<()> {
        Ok(())
    }
}
