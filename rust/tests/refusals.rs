//! Every refusal that each call can give; and that everything lent is as it was.

mod common;

use common::{marks, pair, PAIR};
use hrnkovida::{Layout, Limits, RebuildRefusal, Refusal, Standing};

/// What the calls on a stripe are lent.
#[derive(Clone, Debug, PartialEq)]
struct Lent {
    standing: Standing,
    stripe: Vec<u8>,
    spare: Vec<u8>,
}

/// The pair's stripe with L = 2 and these blocks lost.
fn lent(lost: &[usize]) -> Lent {
    Lent {
        standing: Standing::from_marks(2, marks(lost)),
        stripe: (10..24).collect(),
        spare: vec![0xEE; 2],
    }
}

/// The same with another L; the stripe's length goes with it.
fn with_length(length: usize) -> Lent {
    let mut lent = lent(&[0]);
    lent.standing = Standing::from_marks(length, 1);
    lent.stripe = vec![7; pair().stripe_len(length)];
    lent.spare = vec![0xEE; length];
    lent
}

/// The same with another length of the stripe.
fn with_stripe(length: usize) -> Lent {
    let mut lent = lent(&[0]);
    lent.stripe = vec![7; length];
    lent
}

/// What every call on a whole stripe refuses by 7.
fn unsound_lengths() -> [Lent; 6] {
    [
        with_length(0),
        with_length(1025),
        with_stripe(0),
        with_stripe(13),
        with_stripe(15),
        with_stripe(7),
    ]
}

/// What a call that looks at L alone refuses by 7, L too large for any stripe among it.
fn unsound_lengths_alone() -> [Lent; 3] {
    let mut endless = lent(&[0]);
    endless.standing = Standing::from_marks(usize::MAX, 1);
    [with_length(0), with_length(1025), endless]
}

/// A mark at n, and one at the last place there is.
fn unknown_marks() -> [Lent; 2] {
    [lent(&[0, 7]), lent(&[0, 63])]
}

/// Makes the call and holds it to this refusal, and to having changed nothing.
fn refused(mut lent: Lent, refusal: Refusal, call: impl Fn(&mut Lent) -> Result<(), Refusal>) {
    let before = lent.clone();
    assert_eq!(call(&mut lent), Err(refusal), "{before:?}");
    assert_eq!(lent, before, "refused by {refusal}");
}

fn encode(lent: &mut Lent) -> Result<(), Refusal> {
    pair().encode(&mut lent.standing, &mut lent.stripe)
}

fn lose(block: usize) -> impl Fn(&mut Lent) -> Result<(), Refusal> {
    move |lent| pair().lose(&mut lent.standing, block)
}

fn plan(block: usize) -> impl Fn(&mut Lent) -> Result<(), Refusal> {
    move |lent| pair().plan(&lent.standing, block).map(|_| ())
}

fn repair(block: usize) -> impl Fn(&mut Lent) -> Result<(), Refusal> {
    move |lent| pair().repair(&mut lent.standing, &mut lent.stripe, block)
}

fn correct(
    block: usize,
    offset: usize,
    difference: &[u8],
) -> impl Fn(&mut Lent) -> Result<(), Refusal> + '_ {
    move |lent| pair().correct(&lent.standing, &mut lent.stripe, block, offset, difference)
}

/// Fetches, and holds the view to it: no part exactly where fetching refuses.
fn fetch(block: usize) -> impl Fn(&mut Lent) -> Result<(), Refusal> {
    move |lent| {
        let viewed = pair().view(&lent.standing, &lent.stripe, &lent.spare, block);
        let length = viewed.map(<[u8]>::len);
        let fetched = pair().fetch(&lent.standing, &lent.stripe, &mut lent.spare, block);
        let whole = fetched.is_ok().then_some(lent.standing.length());
        assert_eq!(length, whole, "view of {block}, {fetched:?}");
        fetched
    }
}

fn rebuild(lent: &mut Lent) -> Result<(), RebuildRefusal> {
    pair().rebuild(&mut lent.standing, &mut lent.stripe)
}

#[test]
fn reading_gives_1_to_5_with_the_offset() {
    let with = |place: usize, byte: u8| {
        let mut note = PAIR;
        note[place] = byte;
        note
    };
    for (note, number, offset) in [
        (&PAIR[..3], 1, 0),
        (&PAIR[..16], 1, 0),
        (&with(11, 5), 1, 11),
        (&with(7, 3), 2, 5),
        (&with(5, 1), 3, 5),
        (&with(0, 1), 3, 0),
        (&with(16, 0), 3, 11),
        (&[3, 0, 2, 0, 1], 3, 0),
        (&[9, 0, 2, 0, 1, 4, 0, 1, 0, 1, 2], 3, 0),
        (&[4, 0, 1, 0, 1, 2, 4, 0], 4, 6),
        (&with(16, 31), 5, 11),
        (&with(4, 16), 5, 5),
        (&with(4, 17), 5, 0),
        (&[9, 0, 7, 0], 1, 0),
        (&[0, 0, 9, 9], 3, 0),
    ] {
        let refused = Layout::read(note).unwrap_err();
        let found = (refused.refusal().number(), refused.offset());
        assert_eq!(found, (number, offset), "{note:02X?}");
    }
}

#[test]
fn encoding_gives_7_and_never_8() {
    for lent in unsound_lengths() {
        refused(lent, Refusal::StripeLength, encode);
    }
    for mut lent in unknown_marks() {
        assert_eq!(encode(&mut lent), Ok(()));
        assert_eq!(lent.standing, Standing::new(2));
    }
}

#[test]
fn losing_gives_7_8_9_11() {
    for lent in unsound_lengths_alone() {
        refused(lent, Refusal::StripeLength, lose(1));
    }
    for lent in unknown_marks() {
        refused(lent, Refusal::UnknownMark, lose(1));
    }
    for block in [7, 63, 64, usize::MAX] {
        refused(lent(&[]), Refusal::UnknownBlock, lose(block));
    }
    refused(lent(&[0, 6]), Refusal::AlreadyLost, lose(6));
}

#[test]
fn planning_gives_7_8_9_10_14() {
    for lent in unsound_lengths_alone() {
        refused(lent, Refusal::StripeLength, plan(0));
    }
    for lent in unknown_marks() {
        refused(lent, Refusal::UnknownMark, plan(0));
    }
    for block in [7, 63, 64, usize::MAX] {
        refused(lent(&[0]), Refusal::UnknownBlock, plan(block));
    }
    refused(lent(&[0]), Refusal::NotLost, plan(1));
    refused(lent(&[0, 1, 5]), Refusal::NoPlan, plan(5));
}

#[test]
fn repairing_gives_7_8_9_10_14() {
    for lent in unsound_lengths() {
        refused(lent, Refusal::StripeLength, repair(0));
    }
    for lent in unknown_marks() {
        refused(lent, Refusal::UnknownMark, repair(0));
    }
    for block in [7, 63, 64, usize::MAX] {
        refused(lent(&[0]), Refusal::UnknownBlock, repair(block));
    }
    refused(lent(&[0]), Refusal::NotLost, repair(1));
    refused(lent(&[0, 1, 5]), Refusal::NoPlan, repair(1));
}

#[test]
fn rebuilding_gives_7_8_and_14_with_the_block() {
    let numbered = |lent: &mut Lent| rebuild(lent).map_err(|refused| refused.refusal());
    for lent in unsound_lengths() {
        refused(lent, Refusal::StripeLength, numbered);
    }
    for lent in unknown_marks() {
        refused(lent, Refusal::UnknownMark, numbered);
    }
    // Lost {2, 3, 6}: none has a plan; lost {0, 2, 3, 6}: block 0 has one, and is not named.
    for lost in [&[2, 3, 6][..], &[0, 2, 3, 6]] {
        refused(lent(lost), Refusal::NoPlan, numbered);
        assert_eq!(rebuild(&mut lent(lost)).unwrap_err().block(), Some(2));
    }
    assert_eq!(rebuild(&mut with_stripe(1)).unwrap_err().block(), None);
    assert_eq!(rebuild(&mut lent(&[7])).unwrap_err().block(), None);
}

#[test]
fn correcting_gives_7_8_9_11_12() {
    for lent in unsound_lengths() {
        refused(lent, Refusal::StripeLength, correct(1, 0, &[]));
    }
    for lent in unknown_marks() {
        refused(lent, Refusal::UnknownMark, correct(1, 0, &[1]));
    }
    for block in [4, 6, 7, 64, usize::MAX] {
        refused(lent(&[4]), Refusal::UnknownBlock, correct(block, 0, &[1]));
    }
    refused(lent(&[0]), Refusal::AlreadyLost, correct(0, 0, &[1]));
    for (offset, difference) in [
        (3, &[][..]),
        (2, &[1]),
        (1, &[1, 1]),
        (0, &[1, 1, 1]),
        (usize::MAX, &[]),
        (usize::MAX, &[1]),
    ] {
        refused(
            lent(&[0]),
            Refusal::DifferencePastBlock,
            correct(1, offset, difference),
        );
    }
    let mut empty = lent(&[0]);
    assert_eq!(correct(1, 2, &[])(&mut empty), Ok(()));
    assert_eq!(empty, lent(&[0]));
}

#[test]
fn fetching_gives_7_8_9_13_14_and_the_view_no_part() {
    for lent in unsound_lengths() {
        refused(lent, Refusal::StripeLength, fetch(0));
    }
    for lent in unknown_marks() {
        refused(lent, Refusal::UnknownMark, fetch(0));
    }
    for block in [7, 63, 64, usize::MAX] {
        refused(lent(&[0]), Refusal::UnknownBlock, fetch(block));
    }
    for block in [0, 1] {
        for length in [0, 1, 3] {
            let mut lent = lent(&[0]);
            lent.spare = vec![0xEE; length];
            refused(lent, Refusal::SpareLength, fetch(block));
        }
    }
    refused(lent(&[0, 1, 5]), Refusal::NoPlan, fetch(0));
    assert_eq!(fetch(0)(&mut lent(&[0])), Ok(()));
    assert_eq!(fetch(1)(&mut lent(&[0])), Ok(()));
}

#[test]
fn pricing_gives_15_and_16() {
    let price = |layout: &Layout, storage, reads| layout.price(Limits { storage, reads });
    let bare = Layout::read(&[4, 0, 1, 0, 0, 1]).unwrap();
    for (storage, reads) in [(f64::NAN, 2.0), (0.0, f64::NAN), (f64::NAN, -f64::NAN)] {
        for layout in [&pair(), &bare] {
            let refused = price(layout, storage, reads);
            assert_eq!(refused, Err(Refusal::LimitNotNumber));
        }
    }
    assert_eq!(price(&bare, 9.0, 9.0), Err(Refusal::NoPlanAlone));
    assert_eq!(price(&bare, 0.0, 0.0), Err(Refusal::NoPlanAlone));
}

#[test]
fn the_lowest_number_wins() {
    // Each is at fault in every way from its number on.
    let mut all = with_stripe(13);
    all.standing = Standing::from_marks(2, marks(&[0, 1, 5, 7]));
    all.spare = vec![0xEE; 3];
    refused(all.clone(), Refusal::StripeLength, repair(7));
    refused(all.clone(), Refusal::StripeLength, correct(4, 9, &[1]));
    refused(all.clone(), Refusal::StripeLength, fetch(7));
    all.stripe = vec![7; 14];
    refused(all.clone(), Refusal::UnknownMark, repair(7));
    refused(all.clone(), Refusal::UnknownMark, correct(4, 9, &[1]));
    refused(all.clone(), Refusal::UnknownMark, fetch(7));
    all.standing = Standing::from_marks(2, marks(&[0, 1, 5]));
    refused(all.clone(), Refusal::UnknownBlock, correct(5, 9, &[1]));
    refused(all.clone(), Refusal::UnknownBlock, fetch(7));
    refused(all.clone(), Refusal::AlreadyLost, correct(0, 9, &[1]));
    refused(all, Refusal::SpareLength, fetch(0));
}
