//! The archive's exports, declared here and nowhere else.
//!
//! A slice crosses as a pointer, then a length. A struct crosses by value, except that a standing
//! which the call changes crosses by reference.
//!
//! What an export owes is proved, and it owes it for every value of its arguments: none has a
//! condition to be met first. What is left to a caller is what a slice or a reference says by
//! itself:
//!
//! - a pointer and its length are those of bytes that are lent for the whole call;
//! - bytes lent to be written are lent to this call alone, so that they overlap nothing else that
//!   is lent;
//! - through the pointer of an empty slice nothing is read or written, so that it may dangle.
//!
//! Each use of an export says how it keeps to this.

/// A group of a layout.
#[repr(C)]
#[derive(Clone, Copy, Debug, PartialEq, Eq)]
pub struct Group {
    /// Its own redundant blocks.
    pub h: u8,
    /// Its data blocks; 0 for a branch.
    pub d: u8,
    /// The length that its record gives.
    pub len: usize,
    /// The first of its rows.
    pub row: usize,
    /// The first data block inside it.
    pub first: usize,
    /// The first of its own redundant blocks, counted from k on.
    pub redundant: usize,
    /// The groups inside it, itself counted.
    pub size: usize,
    /// The data blocks inside it, those of nested groups included.
    pub count: usize,
}

/// A layout: its groups in the order of their headers, zeros from `groups` on; k data blocks and r
/// redundant blocks.
#[repr(C)]
#[derive(Clone, Copy, Debug, PartialEq, Eq)]
pub struct Layout {
    pub groups: usize,
    pub list: [Group; 16],
    pub k: usize,
    pub r: usize,
}

/// L and the marks of the lost blocks; the lowest bit is block 0.
#[repr(C)]
#[derive(Clone, Copy, Debug, PartialEq, Eq)]
pub struct Standing {
    pub len: usize,
    pub lost: u64,
}

/// The blocks that a plan reads, rising, with their coefficients; zeros from `reads` on.
#[repr(C)]
#[derive(Clone, Copy, Debug, PartialEq, Eq)]
pub struct Plan {
    pub reads: usize,
    pub block: [u8; 32],
    pub coef: [u8; 32],
}

/// 0 or a refusal; for a rebuild's 14 the block that it names, otherwise block 0.
#[repr(C)]
#[derive(Clone, Copy, Debug)]
pub struct Said {
    pub number: u8,
    pub block: usize,
}

/// The two limits of the price sheet.
#[repr(C)]
#[derive(Clone, Copy, Debug)]
pub struct Limits {
    pub storage: f64,
    pub reads: f64,
}

/// A part of the stripe (`slice` 0) or of the spare (1): `len` bytes from `from` on. No byte of the
/// spare is the refusal.
#[repr(C)]
#[derive(Clone, Copy, Debug)]
pub struct Part {
    pub slice: u8,
    pub from: usize,
    pub len: usize,
}

/// 0 and the layout; or a refusal, its offset and the blank layout.
#[repr(C)]
#[derive(Clone, Copy, Debug)]
pub struct NoteSaid {
    pub number: u8,
    pub offset: usize,
    pub layout: Layout,
}

/// 0 and the plan; or a refusal and the blank plan.
#[repr(C)]
#[derive(Clone, Copy, Debug)]
pub struct PlanSaid {
    pub number: u8,
    pub plan: Plan,
}

/// Verdict 0: fits, with both figures; 1: too large, with storage; 2: too many reads, with reads;
/// 3: refused by `number`.
#[repr(C)]
#[derive(Clone, Copy, Debug)]
pub struct PriceSaid {
    pub verdict: u8,
    pub number: u8,
    pub storage: f64,
    pub reads: f64,
}

extern "C" {
    pub fn store_read(note: *const u8, note_len: usize) -> NoteSaid;

    pub fn store_encode(
        layout: Layout,
        standing: &mut Standing,
        stripe: *mut u8,
        stripe_len: usize,
    ) -> Said;

    pub fn store_lose(layout: Layout, standing: &mut Standing, block: usize) -> Said;

    pub fn store_plan(layout: Layout, standing: Standing, block: usize) -> PlanSaid;

    pub fn store_repair(
        layout: Layout,
        standing: &mut Standing,
        stripe: *mut u8,
        stripe_len: usize,
        block: usize,
    ) -> Said;

    pub fn store_rebuild(
        layout: Layout,
        standing: &mut Standing,
        stripe: *mut u8,
        stripe_len: usize,
    ) -> Said;

    pub fn store_correct(
        layout: Layout,
        standing: Standing,
        stripe: *mut u8,
        stripe_len: usize,
        block: usize,
        offset: usize,
        difference: *const u8,
        difference_len: usize,
    ) -> u8;

    pub fn store_fetch(
        layout: Layout,
        standing: Standing,
        stripe: *const u8,
        stripe_len: usize,
        spare: *mut u8,
        spare_len: usize,
        block: usize,
    ) -> u8;

    pub fn store_view(
        layout: Layout,
        standing: Standing,
        stripe: *const u8,
        stripe_len: usize,
        spare: *const u8,
        spare_len: usize,
        block: usize,
    ) -> Part;

    pub fn store_price(layout: Layout, limits: Limits) -> PriceSaid;
}

// The archive's numbers are of 64 bits; a struct of another size here would be read askew.
#[cfg(target_arch = "x86_64")]
const _: () = {
    use core::mem::size_of;
    assert!(size_of::<Group>() == 56);
    assert!(size_of::<Layout>() == 920);
    assert!(size_of::<Standing>() == 16);
    assert!(size_of::<Plan>() == 72);
    assert!(size_of::<Said>() == 16);
    assert!(size_of::<Limits>() == 16);
    assert!(size_of::<Part>() == 24);
    assert!(size_of::<NoteSaid>() == 936);
    assert!(size_of::<PlanSaid>() == 80);
    assert!(size_of::<PriceSaid>() == 24);
};
