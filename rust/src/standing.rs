//! The standing of a stripe.

use crate::exports;
use core::iter::FusedIterator;

/// The standing of a stripe: the length L of its blocks, and which of them are lost.
///
/// Losses and repairs change it in place. Any value may be lent to any call: one that no stripe can
/// have is refused by number.
///
/// ```
/// use hrnkovida::Standing;
///
/// let standing = Standing::from_marks(64, 0b110_0011);
/// assert_eq!(standing.length(), 64);
/// assert!(standing.is_lost(5));
/// assert!(standing.lost().eq([0, 1, 5, 6]));
/// ```
#[derive(Clone, Debug, PartialEq, Eq)]
pub struct Standing {
    pub(crate) raw: exports::Standing,
}

impl Standing {
    /// The standing of a stripe with blocks of `length` bytes, none of them lost. The calls take
    /// lengths from 1 to 1,024.
    pub const fn new(length: usize) -> Standing {
        Standing::from_marks(length, 0)
    }

    /// The standing with these marks: bit b is set where block b is lost, the lowest bit being
    /// block 0.
    pub const fn from_marks(length: usize, marks: u64) -> Standing {
        Standing {
            raw: exports::Standing {
                len: length,
                lost: marks,
            },
        }
    }

    /// The length L of a block, in bytes.
    pub const fn length(&self) -> usize {
        self.raw.len
    }

    /// The marks of the lost blocks, as [`Standing::from_marks`] takes them.
    pub const fn marks(&self) -> u64 {
        self.raw.lost
    }

    /// Whether this block is marked lost. There are marks for 64 blocks; a later block is not lost.
    pub const fn is_lost(&self, block: usize) -> bool {
        block < 64 && self.raw.lost >> block & 1 == 1
    }

    /// The lost blocks, by rising number.
    pub const fn lost(&self) -> Lost {
        Lost {
            marks: self.raw.lost,
        }
    }
}

/// The lost blocks of a [`Standing`], by rising number.
#[derive(Clone, Debug)]
pub struct Lost {
    marks: u64,
}

impl Iterator for Lost {
    type Item = usize;

    fn next(&mut self) -> Option<usize> {
        if self.marks == 0 {
            return None;
        }
        let block = self.marks.trailing_zeros() as usize;
        self.marks &= self.marks - 1;
        Some(block)
    }

    fn size_hint(&self) -> (usize, Option<usize>) {
        let left = self.marks.count_ones() as usize;
        (left, Some(left))
    }
}

impl ExactSizeIterator for Lost {}

impl FusedIterator for Lost {}

#[cfg(test)]
mod tests {
    use super::*;

    #[test]
    fn a_new_standing_has_nothing_lost() {
        let standing = Standing::new(1024);
        assert_eq!(standing.length(), 1024);
        assert_eq!(standing.marks(), 0);
        assert_eq!(standing.lost().next(), None);
        assert_eq!(standing, Standing::from_marks(1024, 0));
    }

    #[test]
    fn the_lowest_mark_is_block_0_and_the_highest_block_63() {
        for block in 0..64 {
            let standing = Standing::from_marks(1, 1 << block);
            assert!(standing.lost().eq([block]));
            for other in 0..130 {
                assert_eq!(standing.is_lost(other), other == block);
            }
        }
        assert!(!Standing::from_marks(1, u64::MAX).is_lost(64));
        assert!(!Standing::from_marks(1, u64::MAX).is_lost(usize::MAX));
    }

    #[test]
    fn lost_blocks_come_by_rising_number_and_are_counted() {
        let mut lost = Standing::from_marks(1, 1 << 63 | 0b110_0011).lost();
        for (left, block) in [(5, 0), (4, 1), (3, 5), (2, 6), (1, 63)] {
            assert_eq!(lost.len(), left);
            assert_eq!(lost.next(), Some(block));
        }
        assert_eq!((lost.len(), lost.next(), lost.next()), (0, None, None));
        assert!(Standing::from_marks(0, u64::MAX).lost().eq(0..64));
    }
}
