//! Layouts, and the notes they are read from.

use crate::exports;
use crate::refusal::NoteRefusal;
use core::fmt;
use core::ops::Range;

/// The layout of a stripe, as a layout note gives it.
///
/// Data blocks are numbered from 0 to k - 1, redundant blocks from k to n - 1. A stripe holds the n
/// blocks one after another, each of L bytes. The calls on a stripe are methods of its layout.
///
/// Two layouts are equal exactly if their notes are.
#[derive(Clone, PartialEq, Eq)]
pub struct Layout {
    pub(crate) raw: exports::Layout,
}

impl Layout {
    /// Reads a layout note.
    ///
    /// Refusals: 1 to 5, the first fault in reading order, with its offset.
    ///
    /// ```
    /// use hrnkovida::Layout;
    ///
    /// // One leaf group: a record of length 4 and kind 1, with h = 2 and d = 6.
    /// let layout = Layout::read(&[4, 0, 1, 0, 2, 6])?;
    /// assert_eq!((layout.data_blocks(), layout.blocks()), (6, 8));
    /// # Ok::<(), hrnkovida::NoteRefusal>(())
    /// ```
    pub fn read(note: &[u8]) -> Result<Layout, NoteRefusal> {
        // SAFETY: pointer and length are those of `note`, which is lent for the call and only read.
        let said = unsafe { exports::store_read(note.as_ptr(), note.len()) };
        match said.number {
            0 => Ok(Layout { raw: said.layout }),
            refused => Err(NoteRefusal::new(refused, said.offset)),
        }
    }

    /// The number of data blocks, k.
    pub const fn data_blocks(&self) -> usize {
        self.raw.k
    }

    /// The number of redundant blocks, n - k.
    pub const fn redundant_blocks(&self) -> usize {
        self.raw.r
    }

    /// The number of blocks, n.
    pub const fn blocks(&self) -> usize {
        self.raw.k + self.raw.r
    }

    /// The number of bytes of a stripe whose blocks have `length` bytes: n x L.
    ///
    /// The calls take lengths from 1 to 1,024 and refuse others by 7. A product that no `usize`
    /// holds is given as `usize::MAX`.
    pub const fn stripe_len(&self, length: usize) -> usize {
        self.blocks().saturating_mul(length)
    }

    /// The groups, in the order in which their headers stand in the note.
    ///
    /// ```
    /// use hrnkovida::Layout;
    ///
    /// // Two leaf groups with h = 1 and d = 2, in a branch with h = 1.
    /// let note = [15, 0, 2, 0, 1, 4, 0, 1, 0, 1, 2, 4, 0, 1, 0, 1, 2];
    /// let layout = Layout::read(&note)?;
    /// let data: Vec<_> = layout.groups().map(|group| group.data()).collect();
    /// assert_eq!(data, [0..4, 0..2, 2..4]);
    /// let redundant: Vec<_> = layout.groups().map(|group| group.redundant()).collect();
    /// assert_eq!(redundant, [4..5, 5..6, 6..7]);
    /// # Ok::<(), hrnkovida::NoteRefusal>(())
    /// ```
    pub fn groups(&self) -> impl ExactSizeIterator<Item = Group> + '_ {
        let k = self.raw.k;
        self.raw.list[..self.raw.groups]
            .iter()
            .map(move |raw| Group { raw: *raw, k })
    }
}

impl fmt::Debug for Layout {
    fn fmt(&self, f: &mut fmt::Formatter<'_>) -> fmt::Result {
        f.write_str("Layout ")?;
        f.debug_list().entries(self.groups()).finish()
    }
}

/// A group of a [`Layout`].
#[derive(Clone, PartialEq, Eq)]
pub struct Group {
    raw: exports::Group,
    k: usize,
}

impl Group {
    /// The data blocks inside it, those of nested groups included.
    pub const fn data(&self) -> Range<usize> {
        self.raw.first..self.raw.first + self.raw.count
    }

    /// Its own redundant blocks: each is made of the data blocks inside the group.
    pub const fn redundant(&self) -> Range<usize> {
        let first = self.k + self.raw.redundant;
        first..first + self.raw.h as usize
    }

    /// Whether it is a leaf group; otherwise it is a branch.
    pub const fn is_leaf(&self) -> bool {
        self.raw.d != 0
    }

    /// How many groups are nested in it, at any depth: those that follow it in [`Layout::groups`].
    pub const fn nested(&self) -> usize {
        self.raw.size - 1
    }
}

impl fmt::Debug for Group {
    fn fmt(&self, f: &mut fmt::Formatter<'_>) -> fmt::Result {
        f.debug_struct("Group")
            .field("data", &self.data())
            .field("redundant", &self.redundant())
            .field("nested", &self.nested())
            .finish()
    }
}

#[cfg(test)]
mod tests {
    extern crate std;

    use super::*;
    use std::format;
    use std::vec::Vec;

    const NO_GROUP: exports::Group = exports::Group {
        h: 0,
        d: 0,
        len: 0,
        row: 0,
        first: 0,
        redundant: 0,
        size: 0,
        count: 0,
    };

    /// A leaf group with h = 1 and d = 2.
    const fn leaf(first: usize, redundant: usize) -> exports::Group {
        exports::Group {
            h: 1,
            d: 2,
            len: 4,
            row: 1,
            first,
            redundant,
            size: 1,
            count: 2,
        }
    }

    /// The layout of document 01's depot pair, put together by hand.
    fn pair() -> Layout {
        let mut list = [NO_GROUP; 16];
        list[0] = exports::Group {
            h: 1,
            len: 15,
            size: 3,
            count: 4,
            ..NO_GROUP
        };
        list[1] = leaf(0, 1);
        list[2] = leaf(2, 2);
        let raw = exports::Layout {
            groups: 3,
            list,
            k: 4,
            r: 3,
        };
        Layout { raw }
    }

    #[test]
    fn the_pair_is_counted() {
        let pair = pair();
        assert_eq!(pair.data_blocks(), 4);
        assert_eq!(pair.redundant_blocks(), 3);
        assert_eq!(pair.blocks(), 7);
        assert_eq!(pair.stripe_len(1024), 7168);
        assert_eq!(pair.stripe_len(0), 0);
        assert_eq!(pair.stripe_len(usize::MAX), usize::MAX);
    }

    #[test]
    fn groups_say_which_blocks_are_theirs() {
        let pair = pair();
        let groups: Vec<Group> = pair.groups().collect();
        let of = |part: fn(&Group) -> Range<usize>| groups.iter().map(part).collect::<Vec<_>>();
        assert_eq!(of(Group::data), [0..4, 0..2, 2..4]);
        assert_eq!(of(Group::redundant), [4..5, 5..6, 6..7]);
        assert!(groups.iter().map(Group::is_leaf).eq([false, true, true]));
        assert!(groups.iter().map(Group::nested).eq([2, 0, 0]));
        assert_eq!(pair.groups().len(), 3);
    }

    #[test]
    fn a_layout_is_shown_by_its_groups() {
        assert_eq!(
            format!("{:?}", Layout::clone(&pair())),
            "Layout [Group { data: 0..4, redundant: 4..5, nested: 2 }, \
             Group { data: 0..2, redundant: 5..6, nested: 0 }, \
             Group { data: 2..4, redundant: 6..7, nested: 0 }]"
        );
    }
}
