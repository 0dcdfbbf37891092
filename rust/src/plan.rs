//! The plan of a lost block.

use crate::exports;
use core::iter::FusedIterator;

/// The plan of a lost block: the surviving blocks it reads, by rising number, each with its
/// coefficient.
///
/// The lost block is the sum, over the field of 256 elements, of coefficient times block. Iterating
/// gives `(block, coefficient)`; no coefficient is 0.
#[derive(Clone, Debug, PartialEq, Eq)]
pub struct Plan {
    raw: exports::Plan,
}

impl Plan {
    pub(crate) const fn new(raw: exports::Plan) -> Plan {
        Plan { raw }
    }

    /// How many blocks it reads.
    pub const fn reads(&self) -> usize {
        self.raw.reads
    }

    /// The blocks it reads, with their coefficients.
    pub const fn iter(&self) -> Reads {
        Reads {
            plan: self.raw,
            next: 0,
        }
    }
}

impl IntoIterator for Plan {
    type Item = (usize, u8);
    type IntoIter = Reads;

    fn into_iter(self) -> Reads {
        self.iter()
    }
}

impl IntoIterator for &Plan {
    type Item = (usize, u8);
    type IntoIter = Reads;

    fn into_iter(self) -> Reads {
        self.iter()
    }
}

/// What a [`Plan`] reads: each block's number and its coefficient.
#[derive(Clone, Debug)]
pub struct Reads {
    plan: exports::Plan,
    next: usize,
}

impl Iterator for Reads {
    type Item = (usize, u8);

    fn next(&mut self) -> Option<(usize, u8)> {
        if self.next == self.plan.reads {
            return None;
        }
        let place = self.next;
        self.next += 1;
        Some((usize::from(self.plan.block[place]), self.plan.coef[place]))
    }

    fn size_hint(&self) -> (usize, Option<usize>) {
        let left = self.plan.reads - self.next;
        (left, Some(left))
    }
}

impl ExactSizeIterator for Reads {}

impl FusedIterator for Reads {}

#[cfg(test)]
mod tests {
    use super::*;

    /// The plan that reads blocks 0, 2, 4 and so on, with coefficients 1, 2, 3 and so on.
    fn even(reads: usize) -> Plan {
        let mut raw = exports::Plan {
            reads,
            block: [0; 32],
            coef: [0; 32],
        };
        for place in 0..reads {
            raw.block[place] = 2 * place as u8;
            raw.coef[place] = 1 + place as u8;
        }
        Plan::new(raw)
    }

    #[test]
    fn unused_entries_are_not_read() {
        for reads in 0..=32 {
            let plan = even(reads);
            assert_eq!((plan.reads(), plan.iter().len()), (reads, reads));
            assert!(plan
                .iter()
                .eq((0..reads).map(|place| (2 * place, 1 + place as u8))));
        }
    }

    #[test]
    fn a_plan_is_walked_lent_or_given() {
        let plan = even(3);
        for (block, coefficient) in &plan {
            assert_eq!(block, 2 * usize::from(coefficient - 1));
        }
        let mut reads = plan.into_iter();
        assert_eq!(reads.by_ref().last(), Some((4, 3)));
        assert_eq!((reads.len(), reads.next(), reads.next()), (0, None, None));
    }
}
