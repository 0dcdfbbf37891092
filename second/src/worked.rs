//! The worked numbers of the store's calls, and runs over whole patterns.

use crate::code::Code;
use crate::note::{read, Group, SAMPLE};
use crate::plan::tests::marks;
use crate::random::Random;
use crate::store::{Limits, Price, Refusal, Standing, Store};

/// Two groups of four with one redundant block each, and two on top.
pub fn two_groups_of_four() -> Group {
    let members = vec![Group::Leaf { own: 1, data: 4 }; 2];
    Group::Branch { own: 2, members }
}

fn store(layout: Group, length: usize, stripe: Vec<u8>) -> Store {
    let standing = Standing { length, lost: 0 };
    let spare = vec![0xEE; length];
    Store {
        layout,
        altered: false,
        standing,
        stripe,
        spare,
    }
}

/// The worked layout with L = 1 and data 1 2 3 4, encoded.
fn sample() -> Store {
    let layout = read(&SAMPLE).unwrap();
    let mut store = store(layout, 1, vec![1, 2, 3, 4, 9, 9, 9]);
    store.standing.lost = u64::MAX;
    store.encode().unwrap();
    store
}

/// Two groups of four, random data, encoded.
fn big(random: &mut Random, length: usize) -> Store {
    let stripe = random.bytes(12 * length);
    let mut store = store(two_groups_of_four(), length, stripe);
    store.encode().unwrap();
    store
}

/// Marks blocks lost and puts junk where they stood.
fn lose_all(store: &mut Store, lost: u64, random: &mut Random) {
    let length = store.standing.length;
    for block in 0..64 {
        if lost >> block & 1 == 1 {
            store.lose(block).unwrap();
            let junk = random.bytes(length);
            store.stripe[block * length..][..length].copy_from_slice(&junk);
        }
    }
}

fn no<T>(number: u8) -> Result<T, Refusal> {
    let block = None;
    Err(Refusal { number, block })
}

#[test]
fn worked_stripe() {
    let store = sample();
    assert_eq!(store.stripe, [1, 2, 3, 4, 57, 98, 153]);
    assert_eq!(store.standing, Standing { length: 1, lost: 0 });
}

#[test]
fn worked_correction() {
    let mut store = sample();
    store.correct(0, 0, &[5]).unwrap();
    assert_eq!(store.stripe, [4, 2, 3, 4, 78, 123, 153]);
    // A lost block is not touched.
    let mut store = sample();
    store.lose(5).unwrap();
    store.correct(0, 0, &[5]).unwrap();
    assert_eq!(store.stripe, [4, 2, 3, 4, 78, 98, 153]);
}

#[test]
fn worked_price() {
    let fits = Price::Fits {
        storage: 1.75,
        reads: 2.0,
    };
    let store = sample();
    let price = |storage, reads| store.price(Limits { storage, reads });
    assert_eq!(price(1.75, 2.0), fits);
    assert_eq!(price(f64::INFINITY, f64::INFINITY), fits);
    assert_eq!(price(1.7, 1.0), Price::TooLarge { storage: 1.75 });
    assert_eq!(price(1.75, 1.9), Price::TooManyReads { reads: 2.0 });
    assert_eq!(price(0.0, f64::NAN), Price::Refused { number: 15 });
    assert_eq!(price(f64::NAN, 0.0), Price::Refused { number: 15 });
}

#[test]
fn price_refusals() {
    let limits = Limits {
        storage: 0.0,
        reads: 0.0,
    };
    let nan = Limits {
        storage: f64::NAN,
        reads: 0.0,
    };
    let bare = store(Group::Leaf { own: 0, data: 1 }, 1, vec![1]);
    assert_eq!(bare.price(limits), Price::Refused { number: 16 });
    assert_eq!(bare.price(nan), Price::Refused { number: 15 });
    let unsound = store(Group::Leaf { own: 1, data: 0 }, 1, vec![1]);
    assert_eq!(unsound.price(nan), Price::Refused { number: 6 });
}

#[test]
fn refusals_in_order() {
    let mut worst = sample();
    worst.layout = Group::Leaf { own: 0, data: 33 };
    worst.standing.length = 0;
    worst.standing.lost = 1 << 63 | 3;
    worst.spare.clear();
    let mut steps: Vec<(u8, Store)> = vec![(6, worst.clone())];
    worst.layout = sample().layout;
    steps.push((7, worst.clone()));
    worst.standing.length = 1;
    steps.push((8, worst.clone()));
    worst.standing.lost = marks(&[0, 1, 5]);
    steps.push((9, worst));
    for (number, store) in steps {
        let mut changed = store.clone();
        if number < 8 {
            assert_eq!(changed.encode(), no(number));
        }
        if number < 9 {
            assert_eq!(changed.rebuild(), no(number));
        }
        assert_eq!(changed.lose(7), no(number));
        assert_eq!(changed.plan(7), no(number));
        assert_eq!(changed.repair(7), no(number));
        assert_eq!(changed.correct(4, 9, &[1, 2]), no(number));
        assert_eq!(changed.fetch(7), no(number));
        assert_eq!(changed.view(7), []);
        assert_eq!(changed, store);
    }
}

#[test]
fn later_refusals() {
    let mut store = sample();
    store.standing.lost = marks(&[0, 1, 5, 6]);
    store.spare.push(1);
    let before = store.clone();
    assert_eq!(store.lose(0), no(11));
    assert_eq!(store.plan(2), no(10));
    assert_eq!(store.plan(0), no(14));
    assert_eq!(store.repair(2), no(10));
    assert_eq!(store.repair(5), no(14));
    let block = Some(0);
    assert_eq!(store.rebuild(), Err(Refusal { number: 14, block }));
    assert_eq!(store.correct(5, 0, &[1]), no(9));
    assert_eq!(store.correct(0, 7, &[1]), no(11));
    assert_eq!(store.correct(2, 1, &[1]), no(12));
    assert_eq!(store.correct(2, 0, &[1, 2]), no(12));
    assert_eq!(store.correct(2, 2, &[]), no(12));
    assert_eq!(store.correct(2, usize::MAX, &[1]), no(12));
    assert_eq!(store.correct(2, 1, &[]), Ok(()));
    assert_eq!(store.fetch(0), no(13));
    assert_eq!(store.fetch(2), no(13));
    assert_eq!(store.view(2), []);
    assert_eq!(store, before);
    store.spare.pop();
    assert_eq!(store.fetch(0), no(14));
    assert_eq!(store.view(0), []);
}

#[test]
fn stripe_sizes() {
    let mut store = sample();
    store.stripe.push(0);
    assert_eq!(store.encode(), no(7));
    assert_eq!(store.repair(0), no(7));
    // Plan and loss take no stripe.
    assert_eq!(store.plan(0), no(10));
    assert_eq!(store.lose(0), Ok(()));
    store.standing.length = 1024;
    store.stripe = vec![1; 7 * 1024];
    assert_eq!(store.encode(), Ok(()));
    store.standing.length = 1025;
    store.stripe = vec![1; 7 * 1025];
    assert_eq!(store.encode(), no(7));
}

#[test]
fn reading() {
    let mut store = sample();
    store.standing.lost = marks(&[0, 1, 5, 6]);
    store.stripe[6] = 0xFF;
    assert_eq!(store.view(6), [0xEE]);
    assert_eq!(store.fetch(2), Ok(()));
    assert_eq!(store.view(2), [3]);
    assert_eq!(store.spare, [0xEE]);
    let stripe = store.stripe.clone();
    assert_eq!(store.fetch(6), Ok(()));
    assert_eq!(store.view(6), [153]);
    assert_eq!(store.stripe, stripe);
    assert_eq!(store.standing.lost, marks(&[0, 1, 5, 6]));
}

#[test]
fn rebuild_counts_earlier_repairs_as_survivors() {
    let mut random = Random::new(8);
    let mut whole = big(&mut random, 2);
    // No encoding any more: only the plans say what comes out.
    whole.stripe = random.bytes(24);
    whole.standing.lost = marks(&[0, 8]);
    let mut single = whole.clone();
    whole.rebuild().unwrap();
    single.repair(0).unwrap();
    let reads: Vec<usize> = {
        let mut after = single.clone();
        after.standing.lost = marks(&[8]);
        after.plan(8).unwrap().iter().map(|item| item.0).collect()
    };
    assert_eq!(reads, [0, 1, 2, 3, 4, 5, 6, 7]);
    single.repair(8).unwrap();
    assert_eq!(whole, single);
    let mut other = whole.clone();
    other.standing.lost = marks(&[0, 8]);
    other.repair(8).unwrap();
    assert_ne!(other.stripe, whole.stripe);
}

#[test]
fn every_recoverable_pattern_gives_the_data_back() {
    let mut random = Random::new(421);
    let encoded = big(&mut random, 3);
    let mut counts = [0; 5];
    for lost in 0u64..1 << 12 {
        let size = lost.count_ones() as usize;
        if size > 4 {
            continue;
        }
        let mut store = encoded.clone();
        lose_all(&mut store, lost, &mut random);
        let before = store.clone();
        match store.rebuild() {
            Ok(()) => {
                counts[size] += 1;
                assert_eq!(store, encoded);
            }
            Err(refusal) => {
                assert_eq!(refusal.number, 14);
                assert_eq!(store, before);
            }
        }
        repairs_from_the_highest(before, &encoded);
    }
    assert_eq!(counts, [1, 12, 66, 220, 421]);
}

/// Single repairs in falling order: each that is accepted gives its bytes.
fn repairs_from_the_highest(mut store: Store, encoded: &Store) {
    let length = store.standing.length;
    let at_start = store.standing.lost;
    for block in (0..12).rev().filter(|b| at_start >> b & 1 == 1) {
        let planned = store.plan(block).map(|_| ());
        assert_eq!(store.repair(block), planned);
        if planned.is_ok() {
            let part = block * length..(block + 1) * length;
            assert_eq!(store.stripe[part.clone()], encoded.stripe[part]);
        }
    }
}

/// Demand 3 on random lists: two orders end alike, and survivors hold a
/// fresh encoding of the corrected data.
#[test]
fn orders_of_repairs_and_corrections_end_alike() {
    let mut random = Random::new(3);
    for _ in 0..150 {
        let length = random.between(1, 4);
        let mut start = big(&mut random, length);
        let mut fresh = start.clone();
        let losses = random.between(0, 5);
        let lost = (0..losses).fold(0u64, |set, _| set | 1 << random.below(12));
        lose_all(&mut start, lost, &mut random);
        let mut calls: Vec<(usize, Option<Vec<u8>>)> = Vec::new();
        calls.extend((0..13).filter(|_| random.chance(60)).map(|b| (b, None)));
        for _ in 0..6 {
            let size = random.between(0, length + 1);
            let block = random.below(9);
            if block > 7 || lost >> block & 1 == 0 {
                calls.push((block, Some(random.bytes(size))));
            }
        }
        let ends = [0, 1].map(|_| {
            for at in (1..calls.len()).rev() {
                calls.swap(at, random.below(at + 1));
            }
            run_list(start.clone(), &calls)
        });
        for (block, difference) in &calls {
            if let Some(difference) = difference {
                let _ = fresh.correct(*block, 0, difference);
            }
        }
        fresh.encode().unwrap();
        assert_eq!(ends[0].1, ends[1].1);
        for end in ends {
            agree_where_not_lost(&end.0, &fresh);
        }
    }
}

type Answers = Vec<((usize, Option<Vec<u8>>), Result<(), Refusal>)>;

/// Runs a list; gives the end, and each call's answer in a fixed order.
fn run_list(mut store: Store, calls: &[(usize, Option<Vec<u8>>)]) -> (Store, Answers) {
    let mut answers: Answers = Vec::new();
    for call in calls {
        let answer = match &call.1 {
            None => store.repair(call.0),
            Some(difference) => store.correct(call.0, 0, difference),
        };
        answers.push((call.clone(), answer));
    }
    answers.sort_by(|a, b| a.0.cmp(&b.0));
    (store, answers)
}

fn agree_where_not_lost(store: &Store, fresh: &Store) {
    let length = store.standing.length;
    for block in (0..12).filter(|b| store.standing.lost >> b & 1 == 0) {
        let part = block * length..(block + 1) * length;
        assert_eq!(store.stripe[part.clone()], fresh.stripe[part]);
    }
}

/// For each number of lost blocks up to `most`: the patterns with plans
/// throughout, and all patterns.
fn with_plans(layout: &Group, most: usize) -> Vec<(usize, usize)> {
    let n = Code::of(layout).n();
    let mut counts = vec![(0, 0); most + 1];
    for lost in 0u64..1 << n {
        let size = lost.count_ones() as usize;
        if size <= most {
            counts[size].0 += usize::from(has_plans(layout, n, lost));
            counts[size].1 += 1;
        }
    }
    counts
}

/// Rebuild and the plans of the single blocks must agree.
fn has_plans(layout: &Group, n: usize, lost: u64) -> bool {
    let mut store = store(layout.clone(), 1, vec![0; n]);
    store.standing.lost = lost;
    let lost_blocks = (0..n).filter(|b| lost >> b & 1 == 1);
    let without = lost_blocks.filter(|&b| store.plan(b).is_err()).min();
    let rebuilt = store.rebuild();
    assert_eq!(rebuilt.err().and_then(|refusal| refusal.block), without);
    without.is_none()
}

#[test]
fn patterns_with_plans_throughout() {
    let counts = with_plans(&two_groups_of_four(), 4);
    assert_eq!(counts, [(1, 1), (12, 12), (66, 66), (220, 220), (421, 495)]);
}
