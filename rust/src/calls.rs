//! The calls on a stripe, and the price sheet.
//!
//! Each hands its arguments to the export of the same name, which answers any values whatever. What
//! an export leaves to its caller (see `exports`) the borrow rules give: bytes lent to be written
//! overlap nothing else that is lent, and all are lent as long as the call lasts.

use crate::exports;
use crate::layout::Layout;
use crate::plan::Plan;
use crate::price::{Limits, Price};
use crate::refusal::{outcome, RebuildRefusal, Refusal};
use crate::standing::Standing;

impl Layout {
    /// Writes every redundant block from the data as lent, leaves every data byte as it was, and
    /// marks nothing lost. Old marks count for nothing.
    ///
    /// Refusals: 7.
    pub fn encode(&self, standing: &mut Standing, stripe: &mut [u8]) -> Result<(), Refusal> {
        let (bytes, len) = (stripe.as_mut_ptr(), stripe.len());
        // SAFETY: the bytes are those of `stripe`; it and the standing are lent to this call alone.
        let said = unsafe { exports::store_encode(self.raw, &mut standing.raw, bytes, len) };
        outcome(said.number)
    }

    /// Marks a block lost and changes nothing else.
    ///
    /// Refusals: 7 (L alone), 8, 9, 11.
    pub fn lose(&self, standing: &mut Standing, block: usize) -> Result<(), Refusal> {
        // SAFETY: the standing is lent to this call alone; no slice crosses.
        let said = unsafe { exports::store_lose(self.raw, &mut standing.raw, block) };
        outcome(said.number)
    }

    /// The plan of a lost block.
    ///
    /// Refusals: 7 (L alone), 8, 9, 10, 14.
    pub fn plan(&self, standing: &Standing, block: usize) -> Result<Plan, Refusal> {
        // SAFETY: nothing is lent; every argument crosses by value.
        let said = unsafe { exports::store_plan(self.raw, standing.raw, block) };
        outcome(said.number)?;
        Ok(Plan::new(said.plan))
    }

    /// Writes a lost block by its plan and clears its mark. No other byte is touched.
    ///
    /// Refusals: 7, 8, 9, 10, 14.
    pub fn repair(
        &self,
        standing: &mut Standing,
        stripe: &mut [u8],
        block: usize,
    ) -> Result<(), Refusal> {
        let (bytes, len) = (stripe.as_mut_ptr(), stripe.len());
        // SAFETY: the bytes are those of `stripe`; it and the standing are lent to this call alone.
        let said = unsafe { exports::store_repair(self.raw, &mut standing.raw, bytes, len, block) };
        outcome(said.number)
    }

    /// Repairs all lost blocks, by rising number; or none, where one of them has no plan.
    ///
    /// Refusals: 7, 8, and 14 with the lowest lost block without a plan.
    pub fn rebuild(
        &self,
        standing: &mut Standing,
        stripe: &mut [u8],
    ) -> Result<(), RebuildRefusal> {
        let (bytes, len) = (stripe.as_mut_ptr(), stripe.len());
        // SAFETY: the bytes are those of `stripe`; it and the standing are lent to this call alone.
        let said = unsafe { exports::store_rebuild(self.raw, &mut standing.raw, bytes, len) };
        match said.number {
            0 => Ok(()),
            refused => Err(RebuildRefusal::new(refused, said.block)),
        }
    }

    /// Lays a correction into a data block: XORs the difference into it from `offset` on, and
    /// coefficient times difference into each surviving redundant block that covers it. Lost blocks
    /// are not touched; their repair brings the correction along. An empty difference is accepted,
    /// `offset` up to L.
    ///
    /// Refusals: 7, 8, 9 (not below k), 11, 12.
    pub fn correct(
        &self,
        standing: &Standing,
        stripe: &mut [u8],
        block: usize,
        offset: usize,
        difference: &[u8],
    ) -> Result<(), Refusal> {
        let (bytes, len) = (stripe.as_mut_ptr(), stripe.len());
        // SAFETY: the bytes are those of `stripe`, which is lent to this call alone, and those of
        // `difference`, which is only read.
        let number = unsafe {
            exports::store_correct(
                self.raw,
                standing.raw,
                bytes,
                len,
                block,
                offset,
                difference.as_ptr(),
                difference.len(),
            )
        };
        outcome(number)
    }

    /// Rebuilds a lost block into the spare. A present block is left where it stands, and the spare
    /// as it was. Afterwards [`Layout::view`] gives the block's bytes in either case.
    ///
    /// Refusals: 7, 8, 9, 13, 14.
    pub fn fetch(
        &self,
        standing: &Standing,
        stripe: &[u8],
        spare: &mut [u8],
        block: usize,
    ) -> Result<(), Refusal> {
        // SAFETY: the bytes are those of `stripe`, which is only read, and those of `spare`, which
        // is lent to this call alone.
        let number = unsafe {
            exports::store_fetch(
                self.raw,
                standing.raw,
                stripe.as_ptr(),
                stripe.len(),
                spare.as_mut_ptr(),
                spare.len(),
                block,
            )
        };
        outcome(number)
    }

    /// The L bytes that hold a block: of the stripe for a present block, of the spare, as it is,
    /// for a lost one. `None` exactly where [`Layout::fetch`] would refuse.
    ///
    /// It is an `Option` because document 01 gives this call no number of its own: an empty part is
    /// its refusal, and the number is had from fetching.
    pub fn view<'a>(
        &self,
        standing: &Standing,
        stripe: &'a [u8],
        spare: &'a [u8],
        block: usize,
    ) -> Option<&'a [u8]> {
        // SAFETY: the bytes are those of `stripe` and of `spare`; both are only read.
        let part = unsafe {
            exports::store_view(
                self.raw,
                standing.raw,
                stripe.as_ptr(),
                stripe.len(),
                spare.as_ptr(),
                spare.len(),
                block,
            )
        };
        part_of(part, stripe, spare)
    }

    /// What the layout costs, under two limits. A figure equal to its limit fits.
    ///
    /// Refusals: 15, 16.
    pub fn price(&self, limits: Limits) -> Result<Price, Refusal> {
        let limits = exports::Limits {
            storage: limits.storage,
            reads: limits.reads,
        };
        // SAFETY: nothing is lent; every argument crosses by value.
        let said = unsafe { exports::store_price(self.raw, limits) };
        Price::answered(said)
    }
}

/// The bytes of a part. It is proved to lie inside its slice; should it not, slicing stops here.
fn part_of<'a>(part: exports::Part, stripe: &'a [u8], spare: &'a [u8]) -> Option<&'a [u8]> {
    let slice = match part.slice {
        0 => stripe,
        1 => spare,
        other => panic!("the archive viewed slice {other}, which this crate does not know"),
    };
    match part.len {
        0 => None,
        len => Some(&slice[part.from..][..len]),
    }
}

#[cfg(test)]
mod tests {
    use super::*;

    fn part(slice: u8, from: usize, len: usize) -> Option<&'static [u8]> {
        part_of(exports::Part { slice, from, len }, b"stripe", b"spare")
    }

    #[test]
    fn a_part_is_of_the_stripe_or_of_the_spare_and_an_empty_one_is_none() {
        assert_eq!(part(0, 2, 3), Some(&b"rip"[..]));
        assert_eq!(part(1, 0, 5), Some(&b"spare"[..]));
        assert_eq!(part(1, 0, 0), None);
    }

    #[test]
    #[should_panic(expected = "the archive viewed slice 2")]
    fn a_part_of_neither_is_no_answer() {
        let _ = part(2, 0, 1);
    }

    #[test]
    #[should_panic(expected = "out of range")]
    fn a_part_outside_its_slice_is_no_answer() {
        let _ = part(0, 5, 2);
    }
}
