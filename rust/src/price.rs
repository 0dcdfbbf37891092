//! The price sheet.

use crate::exports;
use crate::refusal::Refusal;

/// The limits of the price sheet: the most that a layout may cost.
#[derive(Clone, Copy, Debug, PartialEq)]
pub struct Limits {
    /// The most storage ratio.
    pub storage: f64,
    /// The most mean reads.
    pub reads: f64,
}

/// What a layout costs under two limits. Storage is n / k; mean reads is T / k, where T sums, over
/// the data blocks each lost alone, what its plan reads.
#[derive(Clone, Copy, Debug, PartialEq)]
pub enum Price {
    /// Neither figure passes its limit.
    Fits {
        /// n / k.
        storage: f64,
        /// T / k.
        reads: f64,
    },
    /// Storage passes its limit. This is asked before reads.
    TooLarge {
        /// n / k.
        storage: f64,
    },
    /// Mean reads pass their limit.
    TooManyReads {
        /// T / k.
        reads: f64,
    },
}

impl Price {
    /// The price that the export answered with.
    pub(crate) fn answered(said: exports::PriceSaid) -> Result<Price, Refusal> {
        let (storage, reads) = (said.storage, said.reads);
        match said.verdict {
            0 => Ok(Price::Fits { storage, reads }),
            1 => Ok(Price::TooLarge { storage }),
            2 => Ok(Price::TooManyReads { reads }),
            3 => Err(Refusal::answered(said.number)),
            other => {
                panic!("the archive priced with verdict {other}, which this crate does not know")
            }
        }
    }
}

#[cfg(test)]
mod tests {
    use super::*;

    fn answered(verdict: u8, number: u8, storage: f64, reads: f64) -> Result<Price, Refusal> {
        Price::answered(exports::PriceSaid {
            verdict,
            number,
            storage,
            reads,
        })
    }

    #[test]
    fn each_verdict_has_its_case_and_its_figures() {
        let (storage, reads) = (1.75, 2.0);
        assert_eq!(
            answered(0, 0, storage, reads),
            Ok(Price::Fits { storage, reads })
        );
        assert_eq!(
            answered(1, 0, storage, 0.0),
            Ok(Price::TooLarge { storage })
        );
        assert_eq!(
            answered(2, 0, 0.0, reads),
            Ok(Price::TooManyReads { reads })
        );
        assert_eq!(answered(3, 15, 0.0, 0.0), Err(Refusal::LimitNotNumber));
        assert_eq!(answered(3, 16, 0.0, 0.0), Err(Refusal::NoPlanAlone));
    }

    #[test]
    #[should_panic(expected = "the archive priced with verdict 4")]
    fn a_verdict_that_is_none_is_no_answer() {
        let _ = answered(4, 0, 1.0, 1.0);
    }
}
