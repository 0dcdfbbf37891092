//! Refusals: document 01, "When the store says no".

use core::error::Error;
use core::fmt;

/// Why the store said no: a number of document 01's table.
///
/// A call that refuses has changed nothing that was lent to it. Where several refusals apply, the
/// lowest number is given. Later versions may have more numbers.
///
/// ```
/// use hrnkovida::Refusal;
///
/// assert_eq!(Refusal::NoPlan.number(), 14);
/// assert_eq!(Refusal::from_number(12), Some(Refusal::DifferencePastBlock));
/// assert_eq!(Refusal::from_number(0), None);
/// assert_eq!(Refusal::SpareLength.to_string(), "refusal 13: spare not exactly L bytes");
/// ```
#[derive(Clone, Copy, Debug, PartialEq, Eq, Hash)]
#[non_exhaustive]
#[repr(u8)]
pub enum Refusal {
    /// Fewer than 4 bytes remain where a record must start, or it runs past the end of its branch
    /// or note.
    RecordPastEnd = 1,
    /// Kind neither 1 nor 2.
    UnknownKind = 2,
    /// Length below 2; leaf length not 4; branch length below 3; d = 0; fewer than two members.
    UnsoundRecord = 3,
    /// Bytes after the top record.
    BytesAfter = 4,
    /// A bound on k, n, groups, nesting or rows is passed.
    BoundPassed = 5,
    /// A layout that no accepted note gives. A [`Layout`](crate::Layout) comes from an accepted
    /// note, so no call of this crate gives it.
    UnknownLayout = 6,
    /// L outside its range, or stripe not n x L bytes.
    StripeLength = 7,
    /// A lost mark at n or above.
    UnknownMark = 8,
    /// Block number not below n (a correction: not below k).
    UnknownBlock = 9,
    /// Repair of, or plan for, a block not lost.
    NotLost = 10,
    /// Correction or loss of a block already lost.
    AlreadyLost = 11,
    /// Offset plus difference passes L.
    DifferencePastBlock = 12,
    /// Spare not exactly L bytes.
    SpareLength = 13,
    /// The lost block to be planned, repaired or read, or in a rebuild any lost block, has no plan.
    NoPlan = 14,
    /// A price limit is not a number.
    LimitNotNumber = 15,
    /// A data block lost alone has no plan.
    NoPlanAlone = 16,
}

impl Refusal {
    const TABLE: [Refusal; 16] = [
        Refusal::RecordPastEnd,
        Refusal::UnknownKind,
        Refusal::UnsoundRecord,
        Refusal::BytesAfter,
        Refusal::BoundPassed,
        Refusal::UnknownLayout,
        Refusal::StripeLength,
        Refusal::UnknownMark,
        Refusal::UnknownBlock,
        Refusal::NotLost,
        Refusal::AlreadyLost,
        Refusal::DifferencePastBlock,
        Refusal::SpareLength,
        Refusal::NoPlan,
        Refusal::LimitNotNumber,
        Refusal::NoPlanAlone,
    ];

    /// Its number in the table.
    pub const fn number(self) -> u8 {
        self as u8
    }

    /// The refusal with this number, if the table has it.
    pub fn from_number(number: u8) -> Option<Refusal> {
        Refusal::TABLE
            .into_iter()
            .find(|refusal| refusal.number() == number)
    }

    /// When it is given, in the words of document 01.
    pub const fn words(self) -> &'static str {
        match self {
            Refusal::RecordPastEnd => {
                "fewer than 4 bytes remain where a record must start, \
                 or it runs past the end of its branch or note"
            }
            Refusal::UnknownKind => "kind neither 1 nor 2",
            Refusal::UnsoundRecord => {
                "length below 2; leaf length not 4; branch length below 3; d = 0; \
                 fewer than two members"
            }
            Refusal::BytesAfter => "bytes after the top record",
            Refusal::BoundPassed => "a bound on k, n, groups, nesting or rows is passed",
            Refusal::UnknownLayout => "a layout that no accepted note gives",
            Refusal::StripeLength => "L outside its range, or stripe not n x L bytes",
            Refusal::UnknownMark => "a lost mark at n or above",
            Refusal::UnknownBlock => "block number not below n (a correction: not below k)",
            Refusal::NotLost => "repair of, or plan for, a block not lost",
            Refusal::AlreadyLost => "correction or loss of a block already lost",
            Refusal::DifferencePastBlock => "offset plus difference passes L",
            Refusal::SpareLength => "spare not exactly L bytes",
            Refusal::NoPlan => {
                "the lost block to be planned, repaired or read, \
                 or in a rebuild any lost block, has no plan"
            }
            Refusal::LimitNotNumber => "a price limit is not a number",
            Refusal::NoPlanAlone => "a data block lost alone has no plan",
        }
    }

    /// The refusal that an export answered with.
    ///
    /// The archive's numbers are proved to be those of the table. One that is not there could only
    /// come from an archive of another version: then it must not pass for an answer of this one.
    pub(crate) fn answered(number: u8) -> Refusal {
        match Refusal::from_number(number) {
            Some(refusal) => refusal,
            None => panic!("the archive answered {number}, which this crate's table does not have"),
        }
    }
}

/// An export's answer that is a number and nothing else: 0 where the call was accepted.
pub(crate) fn outcome(number: u8) -> Result<(), Refusal> {
    match number {
        0 => Ok(()),
        refused => Err(Refusal::answered(refused)),
    }
}

impl fmt::Display for Refusal {
    fn fmt(&self, f: &mut fmt::Formatter<'_>) -> fmt::Result {
        write!(f, "refusal {}: {}", self.number(), self.words())
    }
}

impl Error for Refusal {}

/// A note refused: one of the numbers 1 to 5, and where in the note the fault is.
///
/// ```
/// use hrnkovida::{Layout, Refusal};
///
/// let refused = Layout::read(&[4, 0, 1, 0, 1, 0]).unwrap_err();
/// assert_eq!(refused.refusal(), Refusal::UnsoundRecord);
/// assert_eq!(refused.offset(), 0);
/// ```
#[derive(Clone, Copy, Debug, PartialEq, Eq, Hash)]
pub struct NoteRefusal {
    refusal: Refusal,
    offset: usize,
}

impl NoteRefusal {
    pub(crate) fn new(number: u8, offset: usize) -> NoteRefusal {
        NoteRefusal {
            refusal: Refusal::answered(number),
            offset,
        }
    }

    /// Which refusal it is.
    pub const fn refusal(&self) -> Refusal {
        self.refusal
    }

    /// The offset of the record at fault; for 4, of the first extra byte; for fewer than two
    /// members, of the branch.
    pub const fn offset(&self) -> usize {
        self.offset
    }
}

impl fmt::Display for NoteRefusal {
    fn fmt(&self, f: &mut fmt::Formatter<'_>) -> fmt::Result {
        let (number, words) = (self.refusal.number(), self.refusal.words());
        write!(f, "refusal {number} at offset {}: {words}", self.offset)
    }
}

impl Error for NoteRefusal {}

/// A rebuild refused: its number, and for 14 the block it names.
#[derive(Clone, Copy, Debug, PartialEq, Eq, Hash)]
pub struct RebuildRefusal {
    refusal: Refusal,
    block: usize,
}

impl RebuildRefusal {
    pub(crate) fn new(number: u8, block: usize) -> RebuildRefusal {
        RebuildRefusal {
            refusal: Refusal::answered(number),
            block,
        }
    }

    /// Which refusal it is.
    pub const fn refusal(&self) -> Refusal {
        self.refusal
    }

    /// The lowest lost block without a plan; only [`Refusal::NoPlan`] names one.
    pub const fn block(&self) -> Option<usize> {
        match self.refusal {
            Refusal::NoPlan => Some(self.block),
            _ => None,
        }
    }
}

impl fmt::Display for RebuildRefusal {
    fn fmt(&self, f: &mut fmt::Formatter<'_>) -> fmt::Result {
        match self.block() {
            Some(block) => {
                let (number, words) = (self.refusal.number(), self.refusal.words());
                write!(f, "refusal {number} for block {block}: {words}")
            }
            None => self.refusal.fmt(f),
        }
    }
}

impl Error for RebuildRefusal {}

#[cfg(test)]
mod tests {
    extern crate std;

    use super::*;
    use std::format;
    use std::string::ToString;

    #[test]
    fn every_number_of_the_table_has_its_refusal_and_no_other_has() {
        for (place, refusal) in Refusal::TABLE.into_iter().enumerate() {
            assert_eq!(usize::from(refusal.number()), place + 1);
        }
        for number in 0..=u8::MAX {
            let found = Refusal::from_number(number);
            assert_eq!(
                found.map(Refusal::number),
                (1..=16).contains(&number).then_some(number)
            );
        }
    }

    #[test]
    fn no_two_refusals_have_the_same_words() {
        for a in Refusal::TABLE {
            for b in Refusal::TABLE {
                assert_eq!(a == b, a.words() == b.words());
            }
        }
    }

    #[test]
    fn a_refusal_is_shown_with_its_number_and_words() {
        assert_eq!(
            Refusal::UnknownKind.to_string(),
            "refusal 2: kind neither 1 nor 2"
        );
        assert_eq!(
            NoteRefusal::new(4, 17).to_string(),
            "refusal 4 at offset 17: bytes after the top record"
        );
        assert_eq!(
            RebuildRefusal::new(8, 0).to_string(),
            "refusal 8: a lost mark at n or above"
        );
        assert_eq!(
            RebuildRefusal::new(14, 3).to_string(),
            format!("refusal 14 for block 3: {}", Refusal::NoPlan.words())
        );
    }

    #[test]
    fn only_14_names_a_block() {
        for refusal in Refusal::TABLE {
            let block = RebuildRefusal::new(refusal.number(), 5).block();
            assert_eq!(block, (refusal == Refusal::NoPlan).then_some(5));
        }
    }

    #[test]
    fn zero_is_accepted_and_every_other_number_refuses() {
        assert_eq!(outcome(0), Ok(()));
        for refusal in Refusal::TABLE {
            assert_eq!(outcome(refusal.number()), Err(refusal));
        }
    }

    #[test]
    #[should_panic(expected = "the archive answered 17")]
    fn a_number_outside_the_table_is_no_answer() {
        let _ = outcome(17);
    }
}
