//! Hrnkovida's proved block store, for Rust programs.
//!
//! Each day's records are cut into blocks; redundant blocks, laid out as a Pyramid code over the
//! field of 256 elements, let a block that is lost with its depot be rebuilt. A block that cannot
//! be rebuilt from what survives is refused by number; nothing else ever comes out.
//!
//! The store is written and proved in Rattle. This crate links its archive and gives its ten calls
//! Rust's types; it computes nothing itself. It needs no standard library and allocates nothing:
//! stripe, spare and standing are lent by the caller. The numbers and words are those of document
//! 01, which the store is held to.
//!
//! # From a day's records to a rebuilt block
//!
//! ```
//! use hrnkovida::{Layout, Limits, Price, Standing};
//!
//! // Two depots: a leaf group of two data blocks and a redundant one in each, and one redundant
//! // block over both.
//! let note = [15, 0, 2, 0, 1, 4, 0, 1, 0, 1, 2, 4, 0, 1, 0, 1, 2];
//! let layout = Layout::read(&note)?;
//! assert_eq!((layout.data_blocks(), layout.blocks()), (4, 7));
//!
//! // What it costs, before it is used: 7 / 4 of the data's room, two blocks read for one lost.
//! let (storage, reads) = (1.75, 2.0);
//! let price = layout.price(Limits { storage, reads })?;
//! assert_eq!(price, Price::Fits { storage, reads });
//!
//! // The day's records stand in the data blocks, at the front of the stripe.
//! let length = 8;
//! let mut stripe = vec![0; layout.stripe_len(length)];
//! stripe[..32].copy_from_slice(b"06:10 on13:40off22:05 on05:30off");
//! let mut standing = Standing::new(length);
//! layout.encode(&mut standing, &mut stripe)?;
//!
//! // A machine drops off, and block 0 with it. What stands there now counts for nothing.
//! layout.lose(&mut standing, 0)?;
//! stripe[..length].fill(0xEE);
//!
//! // It can be had back from blocks 1 and 5, which are in the same depot.
//! let plan = layout.plan(&standing, 0)?;
//! assert!(plan.iter().eq([(1, 26), (5, 129)]));
//!
//! // It is served while it is lost.
//! let mut spare = vec![0; length];
//! layout.fetch(&standing, &stripe, &mut spare, 0)?;
//! assert_eq!(layout.view(&standing, &stripe, &spare, 0), Some(&b"06:10 on"[..]));
//!
//! // A correction to a block that is present: 22:05 becomes 22:15.
//! layout.correct(&standing, &mut stripe, 2, 3, &[b'0' ^ b'1'])?;
//!
//! // Block 3 is lost too; then both are rebuilt.
//! layout.lose(&mut standing, 3)?;
//! stripe[3 * length..4 * length].fill(0xEE);
//! layout.rebuild(&mut standing, &mut stripe)?;
//! assert_eq!(standing.lost().len(), 0);
//! assert_eq!(&stripe[..32], b"06:10 on13:40off22:15 on05:30off");
//! # Ok::<(), Box<dyn std::error::Error>>(())
//! ```
//!
//! # When the store says no
//!
//! Any value gets an answer: a call that cannot be done is refused by a number of document 01's
//! table, and has changed nothing. [`Refusal`] has the numbers and their words. Number 6, a layout
//! that no note gives, is missing below: a [`Layout`] is had from an accepted note and in no other
//! way.
//!
//! ```
//! use hrnkovida::{Layout, Limits, Refusal, Standing};
//!
//! let pair = [15, 0, 2, 0, 1, 4, 0, 1, 0, 1, 2, 4, 0, 1, 0, 1, 2];
//! let read = |note: &[u8]| Layout::read(note).map_err(|no| (no.refusal(), no.offset()));
//! assert_eq!(read(&pair[..9]), Err((Refusal::RecordPastEnd, 0)));
//! assert_eq!(read(&[4, 0, 3, 0, 1, 2]), Err((Refusal::UnknownKind, 0)));
//! assert_eq!(read(&[4, 0, 1, 0, 1, 0]), Err((Refusal::UnsoundRecord, 0)));
//! assert_eq!(read(&[4, 0, 1, 0, 1, 2, 99]), Err((Refusal::BytesAfter, 6)));
//! assert_eq!(read(&[4, 0, 1, 0, 1, 33]), Err((Refusal::BoundPassed, 0)));
//!
//! let layout = Layout::read(&pair).unwrap();
//! let mut standing = Standing::new(1);
//! let mut stripe = [1, 2, 3, 4, 57, 98, 153];
//! let cut = layout.encode(&mut standing, &mut stripe[..6]);
//! assert_eq!(cut, Err(Refusal::StripeLength));
//! let mut marked = Standing::from_marks(1, 1 << 7);
//! assert_eq!(layout.lose(&mut marked, 0), Err(Refusal::UnknownMark));
//! assert_eq!(layout.lose(&mut standing, 7), Err(Refusal::UnknownBlock));
//! assert_eq!(layout.plan(&standing, 0), Err(Refusal::NotLost));
//! layout.lose(&mut standing, 0).unwrap();
//! assert_eq!(layout.lose(&mut standing, 0), Err(Refusal::AlreadyLost));
//! let late = layout.correct(&standing, &mut stripe, 1, 1, &[5]);
//! assert_eq!(late, Err(Refusal::DifferencePastBlock));
//! let fetched = layout.fetch(&standing, &stripe, &mut [0; 2], 0);
//! assert_eq!(fetched, Err(Refusal::SpareLength));
//!
//! // Four blocks survive the loss of 0, 1 and 5, and still none of the three can be had back.
//! layout.lose(&mut standing, 1).unwrap();
//! layout.lose(&mut standing, 5).unwrap();
//! let refused = layout.rebuild(&mut standing, &mut stripe).unwrap_err();
//! assert_eq!((refused.refusal(), refused.block()), (Refusal::NoPlan, Some(0)));
//! assert!(standing.lost().eq([0, 1, 5]));
//!
//! let (storage, reads) = (f64::NAN, 2.0);
//! assert_eq!(layout.price(Limits { storage, reads }), Err(Refusal::LimitNotNumber));
//! let bare = Layout::read(&[4, 0, 1, 0, 0, 1]).unwrap();
//! assert_eq!(bare.price(Limits { storage: 2.0, reads }), Err(Refusal::NoPlanAlone));
//! ```
//!
//! # Where it runs
//!
//! The archive holds code for Linux on x86-64. For other targets the crate can be checked, but
//! nothing that calls the store can be linked.

#![no_std]
#![deny(missing_docs)]

mod calls;
mod exports;
mod layout;
mod plan;
mod price;
mod refusal;
mod standing;

pub use layout::{Group, Layout};
pub use plan::{Plan, Reads};
pub use price::{Limits, Price};
pub use refusal::{NoteRefusal, RebuildRefusal, Refusal};
pub use standing::{Lost, Standing};
