//! Which blocks of a store are in use.

use crate::order::code::Code;
use crate::order::{Lsb0, Order};
use crate::proved::freemap;
use crate::range::bits_of;
use crate::refusal::{Refusal, refused};
use core::fmt::{self, Debug, Formatter};
use core::iter::FusedIterator;

/// Which blocks of a store are in use, as bits of words that are lent, the first block the first
/// bit: one where a block is in use.
///
/// Blocks are handed out one by one or in runs, the lowest first, and taken back. What is handed
/// out was free, and every other block stays as it is. The words can be stored, and read back by
/// [`from_words`](Self::from_words); the bits behind those of the blocks stay as they are.
///
/// # Examples
///
/// ```
/// use worghulen::{FreeMap, Lsb0, Refusal};
///
/// let mut words = [0; 2];
/// let mut map = FreeMap::<Lsb0>::new(&mut words, 100)?;
/// assert_eq!((map.alloc_run(20), map.alloc()), (Some(0), Some(20)));
/// map.free(4, 12);
/// assert_eq!(map.try_free(4, 1), Err(Refusal::NotInUse));
/// assert_eq!(map.alloc_run_aligned(8, 8), Some(8));
/// assert_eq!(map.count_free(), 83);
/// # Ok::<(), Refusal>(())
/// ```
pub struct FreeMap<'a, O: Order = Lsb0>(Proved<'a, O>);

/// The map of the library.
type Proved<'a, O> = freemap::FreeMap<'a, <O as Code>::In<u64>>;

impl<'a, O: Order> FreeMap<'a, O> {
    /// How many words a map of `blocks` blocks takes, with a bit for each block. Constant time.
    ///
    /// # Examples
    ///
    /// ```
    /// use worghulen::{FreeMap, Lsb0};
    ///
    /// assert_eq!(FreeMap::<Lsb0>::words_for(65), 2);
    /// ```
    #[must_use]
    pub fn words_for(blocks: usize) -> usize {
        freemap::map::words_for(blocks)
    }

    /// A map of `blocks` blocks that are all free. Costs by words.
    ///
    /// # Errors
    ///
    /// [`Refusal::Outside`] where the words have fewer bits. They stay then.
    ///
    /// # Examples
    ///
    /// ```
    /// use worghulen::{FreeMap, Lsb0, Refusal};
    ///
    /// let mut words = [5];
    /// assert_eq!(FreeMap::<Lsb0>::new(&mut words, 65).err(), Some(Refusal::Outside { index: 65, len: 64 }));
    /// assert_eq!(words, [5]);
    /// assert_eq!(FreeMap::<Lsb0>::new(&mut words, 60)?.count_free(), 60);
    /// # Ok::<(), Refusal>(())
    /// ```
    pub fn new(words: &'a mut [u64], blocks: usize) -> Result<Self, Refusal> {
        let len = bits_of(words.len(), 64);
        Proved::<'a, O>::new(words, blocks)
            .map(Self)
            .map_err(|_| Refusal::Outside { index: blocks, len })
    }

    /// The map of `blocks` blocks that words have, as they were stored. Constant time.
    ///
    /// # Errors
    ///
    /// [`Refusal::Outside`] where the words have fewer bits.
    ///
    /// # Examples
    ///
    /// ```
    /// use worghulen::{FreeMap, Lsb0};
    ///
    /// assert_eq!(FreeMap::<Lsb0>::from_words(&mut [0xf0], 8)?.alloc_run(3), Some(0));
    /// # Ok::<(), worghulen::Refusal>(())
    /// ```
    pub fn from_words(words: &'a mut [u64], blocks: usize) -> Result<Self, Refusal> {
        let len = bits_of(words.len(), 64);
        Proved::<'a, O>::from_words(words, blocks)
            .map(Self)
            .map_err(|_| Refusal::Outside { index: blocks, len })
    }

    /// How many blocks there are. Constant time.
    ///
    /// # Examples
    ///
    /// ```
    /// use worghulen::{FreeMap, Lsb0};
    ///
    /// assert_eq!(FreeMap::<Lsb0>::new(&mut [0; 2], 100)?.blocks(), 100);
    /// # Ok::<(), worghulen::Refusal>(())
    /// ```
    #[must_use]
    pub fn blocks(&self) -> usize {
        self.0.blocks()
    }

    /// Whether there are `count` blocks from block `at` on, and each is in use. Costs by words.
    ///
    /// # Examples
    ///
    /// ```
    /// use worghulen::{FreeMap, Lsb0};
    ///
    /// let mut words = [0xf0];
    /// let map = FreeMap::<Lsb0>::from_words(&mut words, 64)?;
    /// assert!(map.is_in_use(4, 4) && !map.is_in_use(3, 2));
    /// # Ok::<(), worghulen::Refusal>(())
    /// ```
    #[must_use]
    pub fn is_in_use(&self, at: usize, count: usize) -> bool {
        self.0.is_in_use(at, count)
    }

    /// Whether there are `count` blocks from block `at` on, and each is free. Costs by words.
    ///
    /// # Examples
    ///
    /// ```
    /// use worghulen::{FreeMap, Lsb0};
    ///
    /// let mut words = [0xf0];
    /// assert!(FreeMap::<Lsb0>::from_words(&mut words, 64)?.is_free(8, 56));
    /// # Ok::<(), worghulen::Refusal>(())
    /// ```
    #[must_use]
    pub fn is_free(&self, at: usize, count: usize) -> bool {
        self.0.is_free(at, count)
    }

    /// How many blocks are free. Costs by words.
    ///
    /// # Examples
    ///
    /// ```
    /// use worghulen::{FreeMap, Lsb0};
    ///
    /// assert_eq!(FreeMap::<Lsb0>::from_words(&mut [0xf0], 60)?.count_free(), 56);
    /// # Ok::<(), worghulen::Refusal>(())
    /// ```
    #[must_use]
    pub fn count_free(&self) -> usize {
        self.0.count_free()
    }

    /// Hands out the lowest block that is free, and returns it; `None` exactly where none is, and
    /// then the map stays as it is. Costs by words up to it.
    ///
    /// # Examples
    ///
    /// ```
    /// use worghulen::{FreeMap, Lsb0};
    ///
    /// let mut words = [0b0110];
    /// let mut map = FreeMap::<Lsb0>::from_words(&mut words, 4)?;
    /// assert_eq!((map.alloc(), map.alloc(), map.alloc()), (Some(0), Some(3), None));
    /// # Ok::<(), worghulen::Refusal>(())
    /// ```
    pub fn alloc(&mut self) -> Option<usize> {
        self.0.alloc()
    }

    /// Hands out the lowest free block that is not before `block`, and returns it; `None` exactly
    /// where none is, and then the map stays as it is. Costs by words from that on.
    ///
    /// # Examples
    ///
    /// ```
    /// use worghulen::{FreeMap, Lsb0};
    ///
    /// let mut words = [0b0110];
    /// assert_eq!(FreeMap::<Lsb0>::from_words(&mut words, 4)?.alloc_at_or_after(1), Some(3));
    /// # Ok::<(), worghulen::Refusal>(())
    /// ```
    pub fn alloc_at_or_after(&mut self, block: usize) -> Option<usize> {
        self.0.alloc_at_or_after(block)
    }

    /// Hands out `count` blocks in a row, the first such that are all free, and returns the first of
    /// them. `None` where there are none; no blocks are found at 0. Costs by words for at most 64,
    /// else by bits.
    ///
    /// # Examples
    ///
    /// ```
    /// use worghulen::{FreeMap, Lsb0};
    ///
    /// let mut words = [0b0100];
    /// assert_eq!(FreeMap::<Lsb0>::from_words(&mut words, 8)?.alloc_run(3), Some(3));
    /// # Ok::<(), worghulen::Refusal>(())
    /// ```
    pub fn alloc_run(&mut self, count: usize) -> Option<usize> {
        self.0.alloc_run(count)
    }

    /// Hands out `count` blocks in a row, the first such that are all free and begin at a multiple
    /// of `alignment`, and returns the first of them. An `alignment` of 0 is taken as 1; otherwise
    /// as [`alloc_run`](Self::alloc_run).
    ///
    /// # Examples
    ///
    /// ```
    /// use worghulen::{FreeMap, Lsb0};
    ///
    /// let mut words = [0b0100];
    /// assert_eq!(FreeMap::<Lsb0>::from_words(&mut words, 8)?.alloc_run_aligned(3, 4), Some(4));
    /// # Ok::<(), worghulen::Refusal>(())
    /// ```
    pub fn alloc_run_aligned(&mut self, count: usize, alignment: usize) -> Option<usize> {
        self.0.alloc_run_aligned(count, alignment.max(1))
    }

    /// Puts `count` blocks from block `at` on in use, and returns whether it did. It refuses
    /// exactly where one of them is in use or is not there, or `at` itself is past the map's end.
    /// Then the map stays as it is. Costs by words.
    ///
    /// # Examples
    ///
    /// ```
    /// use worghulen::{FreeMap, Lsb0};
    ///
    /// let mut words = [0b0100];
    /// let mut map = FreeMap::<Lsb0>::from_words(&mut words, 8)?;
    /// assert!(map.reserve(0, 2) && !map.reserve(1, 1));
    /// # Ok::<(), worghulen::Refusal>(())
    /// ```
    pub fn reserve(&mut self, at: usize, count: usize) -> bool {
        self.0.reserve(at, count)
    }

    /// Takes `count` blocks back, from block `at` on, and leaves every other block as it is. Costs by
    /// words.
    ///
    /// # Panics
    ///
    /// Panics where there are not that many, or one is not in use; [`try_free`](Self::try_free) does
    /// not. The map stays then.
    ///
    /// # Examples
    ///
    /// ```
    /// use worghulen::{FreeMap, Lsb0};
    ///
    /// let mut words = [0b0110];
    /// FreeMap::<Lsb0>::from_words(&mut words, 8)?.free(1, 1);
    /// assert_eq!(words, [0b0100]);
    /// # Ok::<(), worghulen::Refusal>(())
    /// ```
    #[track_caller]
    pub fn free(&mut self, at: usize, count: usize) {
        if let Err(why) = self.try_free(at, count) {
            refused("free", &(at, count), self.blocks(), why);
        }
    }

    /// As [`free`](Self::free), or why that would panic.
    ///
    /// # Errors
    ///
    /// [`Refusal::Outside`] where there are not that many, otherwise [`Refusal::NotInUse`] where one
    /// is not in use. The map stays then.
    ///
    /// # Examples
    ///
    /// ```
    /// use worghulen::{FreeMap, Lsb0, Refusal};
    ///
    /// let mut words = [0b0110];
    /// let mut map = FreeMap::<Lsb0>::from_words(&mut words, 8)?;
    /// assert_eq!(map.try_free(2, 2), Err(Refusal::NotInUse));
    /// assert_eq!(map.try_free(2, 7), Err(Refusal::Outside { index: 9, len: 8 }));
    /// map.try_free(1, 2)?;
    /// assert_eq!(words, [0]);
    /// # Ok::<(), Refusal>(())
    /// ```
    pub fn try_free(&mut self, at: usize, count: usize) -> Result<(), Refusal> {
        let (index, len) = (at.saturating_add(count), self.blocks());
        if index > len {
            return Err(Refusal::Outside { index, len });
        }
        if !self.0.is_in_use(at, count) {
            return Err(Refusal::NotInUse);
        }
        self.0.free(at, count);
        Ok(())
    }

    /// The first run of free blocks from block `from` on: its first block, and how many they are up
    /// to the next that is in use or the end. `None` where none is free. Costs by words.
    ///
    /// # Examples
    ///
    /// ```
    /// use worghulen::{FreeMap, Lsb0};
    ///
    /// let mut words = [0b0110];
    /// assert_eq!(FreeMap::<Lsb0>::from_words(&mut words, 8)?.next_free_run(1), Some((3, 5)));
    /// # Ok::<(), worghulen::Refusal>(())
    /// ```
    #[must_use]
    pub fn next_free_run(&self, from: usize) -> Option<(usize, usize)> {
        self.0.next_free_run(from)
    }

    /// The runs of free blocks, lowest first: of each the first block, and how many they are. Costs
    /// by words, and by runs.
    ///
    /// # Examples
    ///
    /// ```
    /// use worghulen::{FreeMap, Lsb0};
    ///
    /// let mut words = [0b0110];
    /// let map = FreeMap::<Lsb0>::from_words(&mut words, 8)?;
    /// assert_eq!(map.iter_free_runs().collect::<Vec<_>>(), [(0, 1), (3, 5)]);
    /// # Ok::<(), worghulen::Refusal>(())
    /// ```
    pub fn iter_free_runs(&self) -> FreeRuns<'_, O> {
        FreeRuns(self.0.iter_free_runs())
    }

    /// How many blocks the largest run of free blocks has; 0 where none is free. Costs by words, and
    /// by runs.
    ///
    /// # Examples
    ///
    /// ```
    /// use worghulen::{FreeMap, Lsb0};
    ///
    /// assert_eq!(FreeMap::<Lsb0>::from_words(&mut [0b0110], 8)?.largest_run(), 5);
    /// # Ok::<(), worghulen::Refusal>(())
    /// ```
    #[must_use]
    pub fn largest_run(&self) -> usize {
        self.0.largest_run()
    }
}

/// How many blocks there are, and the runs that are free.
impl<O: Order> Debug for FreeMap<'_, O> {
    fn fmt(&self, f: &mut Formatter<'_>) -> fmt::Result {
        write!(f, "FreeMap of {} blocks, free ", self.blocks())?;
        f.debug_list().entries(self.iter_free_runs()).finish()
    }
}

/// The runs of free blocks: what [`FreeMap::iter_free_runs`] returns.
///
/// # Examples
///
/// ```
/// use worghulen::{FreeMap, Lsb0};
///
/// let mut words = [!0b0110];
/// let map = FreeMap::<Lsb0>::from_words(&mut words, 64)?;
/// assert_eq!(map.iter_free_runs().next(), Some((1, 2)));
/// # Ok::<(), worghulen::Refusal>(())
/// ```
#[must_use = "iterators are lazy and do nothing unless consumed"]
pub struct FreeRuns<'a, O: Order>(freemap::FreeRuns<'a, <O as Code>::In<u64>>);

impl<O: Order> Clone for FreeRuns<'_, O> {
    fn clone(&self) -> Self {
        Self(self.0.clone())
    }
}

/// The runs that are left.
impl<O: Order> Debug for FreeRuns<'_, O> {
    fn fmt(&self, f: &mut Formatter<'_>) -> fmt::Result {
        f.debug_list().entries(self.clone()).finish()
    }
}

impl<O: Order> Iterator for FreeRuns<'_, O> {
    type Item = (usize, usize);

    fn next(&mut self) -> Option<(usize, usize)> {
        self.0.next()
    }
}

impl<O: Order> FusedIterator for FreeRuns<'_, O> {}
