//! Stripes through losses, corrections, reading and rebuilding, over several layouts and lengths.
//! What they must hold is a fresh encoding of the data with every accepted difference laid in.

use hrnkovida::{Layout, Plan, Refusal, Standing};

/// splitmix64: small, and the same on every machine.
struct Random(u64);

impl Random {
    fn draw(&mut self) -> u64 {
        self.0 = self.0.wrapping_add(0x9E37_79B9_7F4A_7C15);
        let z = (self.0 ^ (self.0 >> 30)).wrapping_mul(0xBF58_476D_1CE4_E5B9);
        let z = (z ^ (z >> 27)).wrapping_mul(0x94D0_49BB_1331_11EB);
        z ^ (z >> 31)
    }

    fn below(&mut self, limit: usize) -> usize {
        (self.draw() % limit as u64) as usize
    }

    fn bytes(&mut self, count: usize) -> Vec<u8> {
        (0..count).map(|_| self.draw() as u8).collect()
    }
}

/// A leaf group's record.
fn leaf(h: u8, d: u8) -> Vec<u8> {
    vec![4, 0, 1, 0, h, d]
}

/// A branch's record.
fn branch(h: u8, members: &[Vec<u8>]) -> Vec<u8> {
    let body = members.concat();
    let length = (body.len() + 3) as u16;
    [&length.to_le_bytes()[..], &[2, 0, h], &body].concat()
}

/// Document 01's depot pair.
fn pair() -> Vec<u8> {
    branch(1, &[leaf(1, 2), leaf(1, 2)])
}

/// The pair; one group; two groups of four; groups of different h and depth; a group without a
/// redundant block; the largest.
fn notes() -> Vec<Vec<u8>> {
    let depots = branch(0, &[leaf(1, 3), leaf(2, 5)]);
    let harbour = branch(1, &[depots.clone(), leaf(0, 2)]);
    vec![
        pair(),
        leaf(3, 7),
        branch(2, &[leaf(1, 4), leaf(1, 4)]),
        branch(2, &[harbour, leaf(3, 4), depots]),
        leaf(0, 5),
        leaf(16, 32),
    ]
}

/// A stripe under way, with the data it stands for.
struct Life {
    layout: Layout,
    standing: Standing,
    stripe: Vec<u8>,
    data: Vec<u8>,
}

impl Life {
    fn start(layout: Layout, length: usize, random: &mut Random) -> Life {
        let mut stripe = random.bytes(layout.stripe_len(length));
        let data = stripe[..layout.data_blocks() * length].to_vec();
        let mut standing = Standing::new(length);
        layout.encode(&mut standing, &mut stripe).unwrap();
        Life {
            layout,
            standing,
            stripe,
            data,
        }
    }

    /// What an encoding of the data as it should be gives.
    fn fresh(&self) -> Vec<u8> {
        let mut stripe = self.data.clone();
        stripe.resize(self.stripe.len(), 0xEE);
        let mut standing = Standing::new(self.standing.length());
        self.layout.encode(&mut standing, &mut stripe).unwrap();
        stripe
    }

    /// Loses a block, and puts junk where it stood.
    fn lose(&mut self, block: usize, random: &mut Random) {
        self.layout.lose(&mut self.standing, block).unwrap();
        let junk = random.bytes(self.standing.length());
        self.block_mut(block).copy_from_slice(&junk);
    }

    fn block_mut(&mut self, block: usize) -> &mut [u8] {
        let length = self.standing.length();
        &mut self.stripe[block * length..][..length]
    }

    /// Lays a difference into a data block that is present; for a lost one it is refused by 11.
    fn correct(&mut self, random: &mut Random) {
        let length = self.standing.length();
        let block = random.below(self.layout.data_blocks());
        let offset = random.below(length + 1);
        let count = random.below(length - offset + 1);
        let difference = random.bytes(count);
        let (standing, stripe) = (&self.standing, &mut self.stripe);
        match self
            .layout
            .correct(standing, stripe, block, offset, &difference)
        {
            Ok(()) => {
                assert!(!standing.is_lost(block));
                let from = block * length + offset;
                for (byte, difference) in self.data[from..].iter_mut().zip(&difference) {
                    *byte ^= difference;
                }
            }
            Err(refusal) => {
                assert_eq!(refusal, Refusal::AlreadyLost);
                assert!(standing.is_lost(block));
            }
        }
    }

    /// Every block that is not lost holds what a fresh encoding gives.
    fn check_survivors(&self) {
        let (length, fresh) = (self.standing.length(), self.fresh());
        for block in (0..self.layout.blocks()).filter(|&block| !self.standing.is_lost(block)) {
            let place = block * length..(block + 1) * length;
            assert_eq!(self.stripe[place.clone()], fresh[place], "block {block}");
        }
    }

    /// Reads every block. A lost one comes by its plan, or is refused by 14 where it has none.
    fn check_reading(&self) {
        let length = self.standing.length();
        let fresh = self.fresh();
        for (block, fresh) in fresh.chunks(length).enumerate() {
            let mut spare = vec![0xEE; length];
            let fetched = self
                .layout
                .fetch(&self.standing, &self.stripe, &mut spare, block);
            let viewed = self
                .layout
                .view(&self.standing, &self.stripe, &spare, block);
            let planned = self.layout.plan(&self.standing, block);
            if planned == Err(Refusal::NoPlan) {
                assert_eq!((fetched, viewed), (Err(Refusal::NoPlan), None));
                assert_eq!(spare, vec![0xEE; length]);
                continue;
            }
            assert_eq!((fetched, viewed), (Ok(()), Some(fresh)));
            match planned {
                Ok(plan) => assert_eq!(self.combined(plan), fresh),
                Err(refusal) => assert_eq!(refusal, Refusal::NotLost),
            }
        }
    }

    /// The sum of coefficient times block over a plan, which reads no lost block.
    fn combined(&self, plan: Plan) -> Vec<u8> {
        let length = self.standing.length();
        let mut sum = vec![0; length];
        for (block, coefficient) in plan {
            assert!(coefficient != 0 && !self.standing.is_lost(block));
            for (sum, &byte) in sum.iter_mut().zip(&self.stripe[block * length..]) {
                *sum ^= product(coefficient, byte);
            }
        }
        sum
    }

    /// Rebuilds all; or, where a block has no plan, repairs those that have one.
    fn finish(&mut self) {
        let lowest = self.standing.lost().find(|&block| !self.has_plan(block));
        let before = (self.standing.clone(), self.stripe.clone());
        match self.layout.rebuild(&mut self.standing, &mut self.stripe) {
            Ok(()) => {
                assert_eq!((lowest, self.standing.marks()), (None, 0));
                assert_eq!(self.stripe, self.fresh());
            }
            Err(refused) => {
                assert_eq!(
                    (refused.refusal(), refused.block()),
                    (Refusal::NoPlan, lowest)
                );
                assert_eq!((self.standing.clone(), self.stripe.clone()), before);
                self.repair_what_can_be();
            }
        }
    }

    fn has_plan(&self, block: usize) -> bool {
        self.layout.plan(&self.standing, block).is_ok()
    }

    fn repair_what_can_be(&mut self) {
        for block in self.standing.lost() {
            let expected = match self.has_plan(block) {
                true => Ok(()),
                false => Err(Refusal::NoPlan),
            };
            let repaired = self
                .layout
                .repair(&mut self.standing, &mut self.stripe, block);
            assert_eq!(repaired, expected);
            assert_eq!(self.standing.is_lost(block), expected.is_err());
        }
        self.check_survivors();
    }
}

/// The product of two bytes by shift and reduce.
fn product(a: u8, b: u8) -> u8 {
    let (mut sum, mut a) = (0, a);
    for bit in 0..8 {
        if b >> bit & 1 == 1 {
            sum ^= a;
        }
        let carry = a >> 7;
        a = (a << 1) ^ (carry * 0x1D);
    }
    sum
}

#[test]
fn lives_of_several_layouts_and_lengths() {
    let mut random = Random(1);
    for note in notes() {
        for length in [1, 2, 29, 256] {
            for most in [1, 3, 6] {
                let layout = Layout::read(&note).unwrap();
                let mut life = Life::start(layout, length, &mut random);
                for _ in 0..random.below(most) + 1 {
                    life.correct(&mut random);
                    let block = random.below(life.layout.blocks());
                    if !life.standing.is_lost(block) {
                        life.lose(block, &mut random);
                    }
                    life.correct(&mut random);
                }
                life.check_survivors();
                life.check_reading();
                life.finish();
            }
        }
    }
}

/// Of the pair's 128 sets of lost blocks, those that can be rebuilt: the empty one, all of one or
/// two blocks, and of the 35 of three all but eight. The eight take {0, 1, 5} or {2, 3, 6}, or two
/// blocks of one of these and block 4. More than three leave fewer than four survivors.
const REBUILT: usize = 1 + 7 + 21 + (35 - 8);

#[test]
fn every_set_of_lost_blocks_of_the_pair() {
    let mut random = Random(2);
    let mut rebuilt = 0;
    for lost in 0..1 << 7 {
        let layout = Layout::read(&pair()).unwrap();
        let mut life = Life::start(layout, 3, &mut random);
        for block in Standing::from_marks(3, lost).lost() {
            life.lose(block, &mut random);
        }
        life.check_reading();
        life.finish();
        rebuilt += usize::from(life.standing.marks() == 0);
    }
    assert_eq!(rebuilt, REBUILT);
}

#[test]
fn the_longest_blocks_of_the_largest_layout() {
    let mut random = Random(3);
    let layout = Layout::read(&leaf(16, 32)).unwrap();
    let mut life = Life::start(layout, 1024, &mut random);
    for block in (0..48).step_by(3) {
        life.lose(block, &mut random);
        life.correct(&mut random);
    }
    life.check_survivors();
    life.finish();
    assert_eq!(life.standing, Standing::new(1024));
}
