//! The one script that is stored for drill: every letter, every refusal of
//! every call, the edges of every number, and the largest stripe.

use super::{put_largest, Writer};
use crate::commands::Command;
use crate::drill::MOST_SCRIPT;
use crate::note::SAMPLE;
use crate::random::Random;

/// Two groups of four with one redundant block each, and two on top.
const TWO_FOURS: [u8; 17] = [15, 0, 2, 0, 2, 4, 0, 1, 0, 1, 4, 4, 0, 1, 0, 1, 4];

/// A branch of two leaves beside a leaf, a row of its own for each group.
const BRANCH_AND_LEAF: [u8; 28] = [
    26, 0, 2, 0, 1, 15, 0, 2, 0, 1, 4, 0, 1, 0, 1, 2, 4, 0, 1, 0, 1, 2, 4, 0, 1, 0, 1, 2,
];

/// Four levels of groups, a row of its own for each group.
const FOUR_LEVELS: [u8; 39] = [
    37, 0, 2, 0, 1, 26, 0, 2, 0, 1, 15, 0, 2, 0, 1, 4, 0, 1, 0, 1, 1, 4, 0, 1, 0, 1, 1, 4, 0, 1, 0,
    1, 1, 4, 0, 1, 0, 1, 1,
];

/// One data block, no redundant one: once lost, it is gone.
const ONE_BLOCK: [u8; 6] = [4, 0, 1, 0, 0, 1];

/// The script. It ends undamaged.
pub fn sample() -> Vec<u8> {
    let random = &mut Random::new(1);
    let mut writer = Writer::new(random, MOST_SCRIPT);
    nothing_yet(&mut writer);
    notes(&mut writer);
    worked(&mut writer);
    pair(&mut writer);
    other_layouts(&mut writer);
    largest(&mut writer);
    assert!(!writer.full);
    writer.bytes
}

fn correct(block: u64, offset: u64, difference: &[u8]) -> Command {
    Command::Correct {
        block,
        offset,
        difference: difference.to_vec(),
    }
}

fn price(storage: f64, reads: f64) -> Command {
    Command::Price {
        storage: storage.to_bits(),
        reads: reads.to_bits(),
    }
}

/// Every call, about one block. The encoding comes last, as it clears marks.
fn every_call(writer: &mut Writer, block: u64) {
    writer.put(Command::Lose(block));
    writer.put(Command::Plan(block));
    writer.put(Command::Repair(block));
    writer.put(Command::Rebuild);
    writer.put(correct(block, 0, &[5]));
    writer.put(Command::Fetch(block));
    writer.put(Command::View(block));
    writer.put(price(f64::INFINITY, f64::INFINITY));
    writer.put(Command::Encode);
}

/// The calls that take a block, about one that may be none.
fn block_calls(writer: &mut Writer, block: u64) {
    writer.put(Command::Lose(block));
    writer.put(Command::Plan(block));
    writer.put(Command::Repair(block));
    writer.put(correct(block, 0, &[5]));
    writer.put(Command::Fetch(block));
    writer.put(Command::View(block));
}

/// Before a note is accepted the layout is one that no note gives.
fn nothing_yet(writer: &mut Writer) {
    writer.put(Command::State);
    every_call(writer, 0);
    writer.put(Command::Stripe(vec![1, 2, 3, 4]));
    writer.put(Command::Spare(vec![10]));
    every_call(writer, 0);
}

/// A top branch with `own` rows over leaves, each of own rows and data.
fn branch(own: u8, leaves: &[(u8, u8)]) -> Vec<u8> {
    let mut note = vec![(3 + 6 * leaves.len()) as u8, 0, 2, 0, own];
    for (rows, data) in leaves {
        note.extend([4, 0, 1, 0, *rows, *data]);
    }
    note
}

/// Notes of every kind at the edge of every bound.
fn notes(writer: &mut Writer) {
    let mut two_left = branch(1, &[(1, 2), (1, 2)]);
    two_left.push(0);
    let mut fault_inside = branch(1, &[(1, 2), (1, 0)]);
    fault_inside.push(0);
    let depth_five = [
        &[48, 0, 2, 0, 1, 37, 0, 2, 0, 1, 26, 0, 2, 0, 1][..],
        &[15, 0, 2, 0, 1, 4, 0, 1, 0, 0, 1, 4, 0, 9, 0, 0, 0],
        &[4, 0, 1, 0, 0, 1].repeat(3),
    ];
    for note in [
        vec![],
        vec![10, 0, 2, 0, 1, 4, 0, 1, 0, 1, 2, 4],
        vec![4, 0, 3, 0, 1, 2],
        vec![4, 0, 1, 0, 1, 0],
        branch(1, &[(1, 2)]),
        two_left,
        fault_inside,
        vec![4, 0, 1, 0, 0x10, 0x20],
        vec![4, 0, 1, 0, 0x11, 0x20],
        vec![4, 0, 1, 0, 0x10, 0x21],
        branch(15, &[(1, 1), (1, 1)]),
        branch(15, &[(2, 1), (1, 1)]),
        branch(0, &[(0, 1); 15]),
        branch(0, &[(0, 1); 16]),
        depth_five.concat(),
    ] {
        writer.put_note(note);
    }
}

/// The worked numbers of the depot pair.
fn worked(writer: &mut Writer) {
    writer.put_note(SAMPLE.to_vec());
    writer.put(Command::Stripe(vec![1, 2, 3, 4, 0, 0, 0]));
    writer.put_spare(1);
    writer.put(Command::Encode);
    writer.put(correct(0, 0, &[5]));
    for lost in [0b1, 0b11, 0b111, 0b10101, 0b100011, 0b1100011] {
        writer.put_standing(1, lost);
        for block in 0..7 {
            writer.put(Command::Plan(block));
            writer.put(Command::Fetch(block));
            writer.put(Command::View(block));
        }
        writer.put(Command::Rebuild);
    }
    for (storage, reads) in [(1.75, 2.0), (1.7, 2.0), (1.75, 1.9), (0.0, f64::NAN)] {
        writer.put(price(storage, reads));
    }
}

/// The depot pair: what is lost, and then what is wrong.
fn pair(writer: &mut Writer) {
    writer.length = 1;
    let encoded = [1, 2, 3, 4, 57, 98, 153];
    let losses = [0, 3, 7, 0b10101, 0b1110000, 0b100011, 0b1100011, 0b1001101];
    for lost in losses {
        lost_blocks(writer, &encoded, lost);
    }
    // Not an encoding: the bytes show what was read.
    lost_blocks(writer, &[7, 6, 5, 4, 3, 2, 1], 0b1000001);
    wrong_layout(writer);
    wrong_lengths(writer);
    wrong_stripes(writer);
    wrong_marks(writer);
    wrong_blocks(writer);
    wrong_spares(writer);
    corrections(writer);
    lowest_number(writer);
    writer.length = 3;
    writer.put_standing(3, 0);
    writer.put_stripe(21);
    writer.orders();
    long_blocks(writer);
}

/// The same loss, other junk each time: single repairs in rising and in
/// falling order, then a rebuild.
fn lost_blocks(writer: &mut Writer, stripe: &[u8], lost: u64) {
    let blocks: Vec<u64> = (0..64).filter(|b| lost >> b & 1 == 1).collect();
    for turn in 0..3 {
        writer.put_standing(writer.length, lost);
        writer.put(Command::Stripe(stripe.to_vec()));
        writer.put(Command::Junk(85 * (turn + 1)));
        match turn {
            0 => blocks.iter().for_each(|&b| writer.put(Command::Repair(b))),
            1 => (blocks.iter().rev()).for_each(|&b| writer.put(Command::Repair(b))),
            _ => writer.put(Command::Rebuild),
        }
    }
}

/// A sound state to make one thing wrong in: block 0 lost.
fn sound(writer: &mut Writer) {
    writer.put_standing(1, 1);
    writer.put(Command::Stripe(vec![170, 2, 3, 4, 57, 98, 153]));
    writer.put(Command::Spare(vec![77]));
}

/// A refused note mends no altered layout; an accepted one does. Fields that
/// there are not alter nothing.
fn wrong_layout(writer: &mut Writer) {
    for field in [1, 0, 130] {
        sound(writer);
        writer.put(Command::Alter(field));
        every_call(writer, 0);
        writer.put_note(vec![4, 0, 1, 0, 1, 0]);
        writer.put(Command::Encode);
        writer.put_note(SAMPLE.to_vec());
        writer.put(Command::Fetch(0));
    }
    writer.put(Command::Alter(131));
    writer.put(Command::Alter(255));
    writer.put(Command::Repair(0));
}

fn wrong_lengths(writer: &mut Writer) {
    sound(writer);
    for length in [0, 1025, usize::MAX] {
        writer.put_standing(length, 1);
        every_call(writer, 0);
    }
    writer.put(Command::Stripe(vec![]));
    writer.put(Command::Spare(vec![]));
    writer.put_standing(0, 0);
    every_call(writer, 1);
}

/// One byte short, one long, none; and with L = 2.
fn wrong_stripes(writer: &mut Writer) {
    for size in [6, 8, 0] {
        sound(writer);
        writer.put_stripe(size);
        every_call(writer, 0);
        every_call(writer, 1);
    }
    writer.put_standing(2, 1);
    for size in [13, 15, 14] {
        writer.put_stripe(size);
        writer.put(Command::Encode);
    }
}

/// An encoding ignores marks of no block, and clears all.
fn wrong_marks(writer: &mut Writer) {
    for marks in [1 << 7 | 1, 1 << 63, u64::MAX] {
        sound(writer);
        writer.put_standing(1, marks);
        every_call(writer, 0);
    }
}

/// The last block, the first that is none, and numbers that high bits make.
fn wrong_blocks(writer: &mut Writer) {
    for block in [7, 255, 256, 1 << 32, u64::MAX] {
        sound(writer);
        block_calls(writer, block);
    }
    for block in [3, 4, 6] {
        sound(writer);
        writer.put(Command::Plan(block));
        writer.put(Command::Repair(block));
        block_calls(writer, block);
    }
    // Every block may be lost, none twice, and a loss takes no stripe.
    writer.put(Command::Stripe(vec![]));
    for block in (0..7).chain([6]) {
        writer.put(Command::Lose(block));
    }
}

/// A spare of another length than L, for a lost block and for a present one.
fn wrong_spares(writer: &mut Writer) {
    writer.put_standing(2, 0);
    writer.put_stripe(14);
    writer.put(Command::Encode);
    writer.put(Command::Lose(1));
    for size in [0, 1, 3, 2] {
        writer.put_spare(size);
        for block in [1, 6] {
            writer.put(Command::View(block));
            writer.put(Command::Fetch(block));
            writer.put(Command::View(block));
        }
    }
}

/// Differences that end at L, pass it, are empty, or are far away; on a lost
/// block, with a redundant block lost, and read by a repair.
fn corrections(writer: &mut Writer) {
    writer.put_standing(3, 0);
    writer.put_stripe(21);
    writer.put(Command::Encode);
    for (offset, size) in [(1, 1), (1, 2), (0, 3), (2, 1), (0, 0), (3, 0)] {
        let difference = writer.random.bytes(size);
        writer.put(correct(offset % 4, offset, &difference));
    }
    writer.put(correct(2, 0, &[0xC3, 0, 0x3C]));
    writer.put(Command::Encode);
    for (offset, size) in [(0, 4), (1, 3), (3, 1), (4, 0), (u64::MAX, 0)] {
        writer.put(correct(0, offset, &vec![1; size]));
    }
    for (offset, size) in [(u64::MAX, 1), (u64::MAX, 2), (1 << 32, 1)] {
        writer.put(correct(3, offset, &vec![1; size]));
    }
    for block in [1, 4, 5] {
        writer.put(Command::Lose(block));
    }
    writer.put(Command::Junk(9));
    writer.put(correct(0, 1, &[0x11, 0x22]));
    writer.put(correct(1, 0, &[]));
    writer.put(correct(2, 0, &[0x33]));
    for block in [4, 1, 5] {
        writer.put(Command::Repair(block));
    }
    writer.put(Command::Encode);
}

/// Faults of all kinds at once, taken away one after the other: the lowest
/// number is given.
fn lowest_number(writer: &mut Writer) {
    let bad = 1 << 7 | 0b100011;
    writer.put_standing(0, bad);
    writer.put_stripe(6);
    writer.put_spare(2);
    writer.put(Command::Alter(1));
    every_call(writer, 7);
    writer.put_note(SAMPLE.to_vec());
    every_call(writer, 7);
    writer.put_standing(1, bad);
    every_call(writer, 7);
    writer.put_stripe(7);
    block_calls(writer, 7);
    writer.put(Command::Rebuild);
    writer.put_standing(1, bad & 0x7F);
    for block in [7, 4, 0, 2] {
        block_calls(writer, block);
        writer.put(correct(block, 2, &[5]));
        writer.put(Command::Rebuild);
    }
    writer.put_spare(1);
    block_calls(writer, 0);
    for limits in [(f64::NAN, 0.0), (0.0, 0.0), (9.0, 0.0)] {
        writer.put(price(limits.0, limits.1));
    }
}

/// Blocks that are just shown, and just too long to be.
fn long_blocks(writer: &mut Writer) {
    for length in [64, 65] {
        writer.length = length;
        writer.put_standing(length, 0);
        writer.put_stripe(7 * length);
        writer.put_spare(length);
        writer.put(Command::Encode);
        writer.put(Command::Lose(2));
        writer.put(Command::Junk(1));
        for block in [2, 0] {
            writer.put(Command::View(block));
            writer.put(Command::Fetch(block));
            writer.put(Command::View(block));
        }
        writer.put(Command::Repair(2));
    }
}

/// Patterns of other layouts, on stripes that are no encodings.
fn other_layouts(writer: &mut Writer) {
    one_block(writer);
    let stripe = [16, 39, 49, 76, 85, 104, 122, 131, 158, 161, 183, 201];
    writer.length = 1;
    writer.put_note(TWO_FOURS.to_vec());
    // Twelve blocks of this length are a multiple of 2 to the power of 64.
    writer.put_standing(1 << 62, 0);
    writer.put(Command::Stripe(vec![]));
    every_call(writer, 0);
    for lost in [0x101, 0x31, 0x33, 0xC3, 0x3C, 0xCC, 0x32] {
        lost_blocks(writer, &stripe, lost);
    }
    writer.length = 2;
    lost_blocks(writer, &stripe.repeat(2), 0x101);
    writer.length = 1;
    writer.put_note(BRANCH_AND_LEAF.to_vec());
    writer.put(price(f64::INFINITY, f64::INFINITY));
    for lost in [0x101, 0x80, 0x40, 3, 0x31, 0x213, 0xF, 0x8F, 0x4B1] {
        lost_blocks(writer, &stripe[..11], lost);
        writer.put_spare(1);
        writer.put_standing(1, lost);
        for block in 0..11 {
            writer.put(Command::Fetch(block));
        }
    }
    writer.length = 2;
    writer.put_note(FOUR_LEVELS.to_vec());
    writer.put(price(f64::INFINITY, f64::INFINITY));
    lost_blocks(writer, &stripe.repeat(2)[..22], 0x93);
}

fn one_block(writer: &mut Writer) {
    writer.put_note(ONE_BLOCK.to_vec());
    writer.put(price(9.0, 9.0));
    writer.put(price(f64::NAN, 9.0));
    // L = 1,025 gives 7, although the stripe has that many bytes.
    for length in [1, 1025] {
        writer.put_standing(length, 0);
        writer.put_stripe(length);
        writer.put(Command::Encode);
        writer.put(correct(0, length as u64 - 1, &[5]));
        writer.put(Command::Lose(0));
        writer.put(Command::Repair(0));
        writer.put(Command::Rebuild);
    }
}

/// 48 blocks of 1,024 bytes: edges of a block, of the marks and of what can be
/// rebuilt.
fn largest(writer: &mut Writer) {
    put_largest(writer);
    writer.put(price(f64::INFINITY, f64::INFINITY));
    for (offset, size) in [(1023, 1), (1024, 0), (1024, 1), (1023, 2), (1025, 0)] {
        writer.put(correct(31, offset, &vec![255; size]));
    }
    writer.put(correct(32, 0, &[1]));
    writer.put(Command::Encode);
    for block in [47, 48] {
        writer.put(Command::Lose(block));
        writer.put(Command::Plan(block));
        writer.put(Command::Fetch(block));
        writer.put(Command::View(block));
        writer.put(Command::Repair(block));
    }
    for length in [1023, 1025] {
        writer.put_standing(length, 0);
        writer.put(Command::Encode);
    }
    for lost in [0x8000_8000_0001, 1 << 48, 0xFFFF, 0x1_FFFF] {
        writer.put_standing(1024, lost);
        writer.put(Command::Junk(77));
        writer.put(Command::Rebuild);
    }
}

#[cfg(test)]
mod tests {
    use super::*;
    use crate::drill;
    use std::collections::BTreeSet;

    /// The refusals that document 01 gives each call.
    const REFUSALS: [(&str, &str); 9] = [
        ("note", "1 2 3 4 5"),
        ("encode", "6 7"),
        ("lose", "6 7 8 9 11"),
        ("plan", "6 7 8 9 10 14"),
        ("repair", "6 7 8 9 10 14"),
        ("rebuild", "6 7 8 14"),
        ("correct", "6 7 8 9 11 12"),
        ("fetch", "6 7 8 9 13 14"),
        ("price", "6 15 16"),
    ];

    /// The answer in a line, 0 if the call is accepted; none in a line of no
    /// call.
    fn answer(line: &str) -> Option<(&str, u8)> {
        let words: Vec<&str> = line.split(' ').collect();
        let number = match words[0] {
            "note" if words[1] == "refused" => words[2],
            "note" => "0",
            "price" if ["fits", "large", "reads"].contains(&words[1]) => "0",
            "encode" | "price" => words[1],
            "rebuild" => words[1].split('@').next()?,
            "lose" | "plan" | "repair" | "correct" | "fetch" => words[2],
            _ => return None,
        };
        Some((words[0], number.parse().expect("a number")))
    }

    #[test]
    fn every_call_is_accepted_and_has_each_of_its_refusals_and_no_other() {
        let text = drill::text(&sample());
        let found: BTreeSet<(&str, u8)> = text.lines().filter_map(answer).collect();
        let mut expected = BTreeSet::new();
        for (call, refusals) in REFUSALS {
            let numbers = refusals.split(' ').map(|number| number.parse().unwrap());
            expected.extend(numbers.chain([0]).map(|number| (call, number)));
        }
        assert_eq!(found, expected);
    }

    #[test]
    fn the_largest_stripe_is_in_it() {
        let size = (crate::commands::MOST_STRIPE as u32).to_le_bytes();
        let start = [b'B', size[0], size[1], size[2], size[3]];
        let script = sample();
        assert!(script.windows(5).any(|part| part == start));
        assert!(script.len() <= MOST_SCRIPT);
    }
}
