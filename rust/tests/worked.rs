//! "A depot pair worked through": the numbers are document 01's.

mod common;

use common::{marks, pair, PAIR};
use hrnkovida::{Layout, Limits, Price, Refusal, Standing};

/// Its data 1 2 3 4, encoded with L = 1.
const STRIPE: [u8; 7] = [1, 2, 3, 4, 57, 98, 153];

/// What reading a note gives: n, or the refusal's number and offset.
fn read(note: &[u8]) -> Result<usize, (u8, usize)> {
    match Layout::read(note) {
        Ok(layout) => Ok(layout.blocks()),
        Err(refused) => Err((refused.refusal().number(), refused.offset())),
    }
}

/// The plan of a block while `lost` are lost.
fn plan(lost: &[usize], block: usize) -> Result<Vec<(usize, u8)>, Refusal> {
    let standing = Standing::from_marks(1, marks(lost));
    Ok(pair().plan(&standing, block)?.into_iter().collect())
}

/// The stripe of this data, encoded over bytes and marks that count for nothing.
fn encoded(data: [u8; 4]) -> [u8; 7] {
    let mut stripe = [0xEE; 7];
    stripe[..4].copy_from_slice(&data);
    let mut standing = Standing::from_marks(1, u64::MAX);
    assert_eq!(pair().encode(&mut standing, &mut stripe), Ok(()));
    assert_eq!(standing, Standing::new(1));
    stripe
}

#[test]
fn the_note_gives_four_data_blocks_of_seven() {
    let pair = pair();
    assert_eq!((pair.data_blocks(), pair.redundant_blocks()), (4, 3));
    assert_eq!((pair.blocks(), pair.stripe_len(1024)), (7, 7 * 1024));
    assert!(pair
        .groups()
        .map(|group| group.data())
        .eq([0..4, 0..2, 2..4]));
    assert!(pair
        .groups()
        .map(|group| group.redundant())
        .eq([4..5, 5..6, 6..7]));
    assert!(pair
        .groups()
        .map(|group| group.is_leaf())
        .eq([false, true, true]));
    assert!(pair.groups().map(|group| group.nested()).eq([2, 0, 0]));
    assert_eq!(pair, Layout::read(&PAIR).unwrap());
    assert_ne!(pair, Layout::read(&PAIR[5..11]).unwrap());
}

#[test]
fn one_and_zeros_encode_to_the_rows() {
    assert_eq!(encoded([1, 0, 0, 0])[4..], [27, 84, 0]);
    assert_eq!(encoded([0, 1, 0, 0])[4..], [84, 27, 0]);
    assert_eq!(encoded([0, 0, 1, 0])[4..], [161, 0, 29]);
    assert_eq!(encoded([0, 0, 0, 1])[4..], [29, 0, 161]);
}

#[test]
fn data_1_2_3_4_encodes_to_57_98_153() {
    assert_eq!(encoded([1, 2, 3, 4]), STRIPE);
}

#[test]
fn block_0_alone_is_had_from_1_and_5() {
    assert_eq!(plan(&[0], 0), Ok(vec![(1, 26), (5, 129)]));
}

#[test]
fn the_lost_sets_have_plans_or_none() {
    for lost in [&[0, 1][..], &[0, 1, 2], &[0, 2, 4]] {
        for &block in lost {
            assert!(plan(lost, block).is_ok(), "{block} of {lost:?}");
        }
    }
    for block in [0, 1, 5] {
        assert_eq!(plan(&[0, 1, 5], block), Err(Refusal::NoPlan));
        assert_eq!(plan(&[0, 1, 5, 6], block), Err(Refusal::NoPlan));
    }
    assert_eq!(plan(&[0, 1, 5, 6], 6), Ok(vec![(2, 29), (3, 161)]));
}

#[test]
fn the_lost_sets_are_rebuilt_or_refused() {
    for (lost, named) in [
        (&[0, 1][..], None),
        (&[0, 1, 2], None),
        (&[0, 2, 4], None),
        (&[0, 1, 5], Some(0)),
        (&[0, 1, 5, 6], Some(0)),
    ] {
        let mut stripe = STRIPE;
        lost.iter().for_each(|&block| stripe[block] = 0xEE);
        let (before, mut standing) = (stripe, Standing::from_marks(1, marks(lost)));
        match pair().rebuild(&mut standing, &mut stripe) {
            Ok(()) => assert_eq!((stripe, standing.marks(), named), (STRIPE, 0, None)),
            Err(refused) => {
                assert_eq!(
                    (refused.refusal(), refused.block()),
                    (Refusal::NoPlan, named)
                );
                assert_eq!((stripe, standing.marks()), (before, marks(lost)));
            }
        }
    }
}

#[test]
fn of_four_lost_blocks_6_alone_is_repaired() {
    let mut stripe = [0xEE, 0xEE, 3, 4, 57, 0xEE, 0xEE];
    let mut standing = Standing::from_marks(1, marks(&[0, 1, 5, 6]));
    assert_eq!(pair().repair(&mut standing, &mut stripe, 6), Ok(()));
    assert_eq!(stripe, [0xEE, 0xEE, 3, 4, 57, 0xEE, 153]);
    assert!(standing.lost().eq([0, 1, 5]));
}

#[test]
fn difference_5_on_block_0() {
    let (mut stripe, standing) = (STRIPE, Standing::new(1));
    assert_eq!(pair().correct(&standing, &mut stripe, 0, 0, &[5]), Ok(()));
    assert_eq!(stripe, [4, 2, 3, 4, 78, 123, 153]);
    assert_eq!(standing, Standing::new(1));
    assert_eq!(stripe, encoded([4, 2, 3, 4]));
}

#[test]
fn a_lost_block_is_read_from_the_spare_and_a_present_one_where_it_stands() {
    let (stripe, standing) = ([0xEE, 2, 3, 4, 57, 98, 153], Standing::from_marks(1, 1));
    let mut spare = [7];
    assert_eq!(pair().fetch(&standing, &stripe, &mut spare, 3), Ok(()));
    assert_eq!(spare, [7]);
    let present = pair().view(&standing, &stripe, &spare, 3).unwrap();
    assert!(core::ptr::eq(present, &stripe[3..4]));
    let lost = pair().view(&standing, &stripe, &spare, 0).unwrap();
    assert!(core::ptr::eq(lost, &spare[..]));
    assert_eq!(pair().fetch(&standing, &stripe, &mut spare, 0), Ok(()));
    assert_eq!(spare, [1]);
}

#[test]
fn the_price_is_1_75_and_2() {
    let (storage, reads) = (1.75, 2.0);
    let price = |storage, reads| pair().price(Limits { storage, reads });
    assert_eq!(price(storage, reads), Ok(Price::Fits { storage, reads }));
    assert_eq!(price(9.0, 9.0), Ok(Price::Fits { storage, reads }));
    assert_eq!(price(1.74, 1.99), Ok(Price::TooLarge { storage }));
    assert_eq!(
        price(f64::INFINITY, 1.99),
        Ok(Price::TooManyReads { reads })
    );
    assert_eq!(
        price(f64::NEG_INFINITY, reads),
        Ok(Price::TooLarge { storage })
    );
}

#[test]
fn the_notes_and_their_refusals() {
    assert_eq!(read(&[4, 0, 1, 0, 0x10, 0x20]), Ok(48));
    assert_eq!(read(&[4, 0, 1, 0, 0x11, 0x20]), Err((5, 0)));
    assert_eq!(read(&[4, 0, 1, 0, 0x10, 0x21]), Err((5, 0)));
    assert_eq!(read(&[4, 0, 1, 0, 1, 0]), Err((3, 0)));
    assert_eq!(read(&[]), Err((1, 0)));
    let mut longer = PAIR.to_vec();
    longer.push(0);
    assert_eq!(read(&longer), Err((4, 17)));
    assert_eq!(read(&[4, 0, 1, 0, 0, 1]), Ok(1));
    let bare = Layout::read(&[4, 0, 1, 0, 0, 1]).unwrap();
    let limits = Limits {
        storage: 9.0,
        reads: 9.0,
    };
    assert_eq!(bare.price(limits), Err(Refusal::NoPlanAlone));
}

#[test]
fn blocks_of_1024_bytes_are_taken_and_of_1025_refused() {
    let encode = |length| {
        let mut stripe = vec![0; pair().stripe_len(length)];
        pair().encode(&mut Standing::new(length), &mut stripe)
    };
    assert_eq!(encode(1024), Ok(()));
    assert_eq!(encode(1025), Err(Refusal::StripeLength));
}
