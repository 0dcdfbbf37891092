//! The calls of the block store. A store keeps what a caller would lend: the
//! layout, the standing, the stripe and the spare. Each call asks for its
//! refusals from the lowest number up, before it changes anything.

use crate::code::{is_lost, Code};
use crate::field::{add, multiply};
use crate::note::{gives, Group};
use crate::plan::{plan, Plan};

pub const MOST_LENGTH: usize = 1024;

/// L and the set of lost blocks, the lowest bit being block 0.
#[derive(Clone, Copy, Debug, PartialEq, Eq)]
pub struct Standing {
    pub length: usize,
    pub lost: u64,
}

/// A refusal's number, and for a rebuild's 14 the block it names.
#[derive(Clone, Copy, Debug, PartialEq, Eq)]
pub struct Refusal {
    pub number: u8,
    pub block: Option<usize>,
}

#[derive(Clone, Copy, Debug, PartialEq)]
pub struct Limits {
    pub storage: f64,
    pub reads: f64,
}

#[derive(Clone, Copy, Debug, PartialEq)]
pub enum Price {
    Fits { storage: f64, reads: f64 },
    TooLarge { storage: f64 },
    TooManyReads { reads: f64 },
    Refused { number: u8 },
}

#[derive(Clone, Debug, PartialEq, Eq)]
pub struct Store {
    pub layout: Group,
    /// Whether some field of the layout was altered after the note gave it:
    /// then no note gives it.
    pub altered: bool,
    pub standing: Standing,
    pub stripe: Vec<u8>,
    pub spare: Vec<u8>,
}

type Answer<T> = Result<T, Refusal>;

/// The refusal `number`, given exactly if `fault` holds.
fn refuse_if(fault: bool, number: u8) -> Answer<()> {
    match fault {
        true => Err(Refusal {
            number,
            block: None,
        }),
        false => Ok(()),
    }
}

/// Adds factor times `from` to `to`, byte by byte.
fn add_scaled(to: &mut [u8], factor: u8, from: &[u8]) {
    assert_eq!(to.len(), from.len());
    for (x, &y) in to.iter_mut().zip(from) {
        *x = add(*x, multiply(factor, y));
    }
}

// What the calls ask, in the order of the numbers.
impl Store {
    /// 6.
    fn sound_layout(&self) -> Answer<Code> {
        refuse_if(self.altered || !gives(&self.layout), 6)?;
        Ok(Code::of(&self.layout))
    }

    /// 6, and 7 for the standing's L.
    fn sound_length(&self) -> Answer<Code> {
        let code = self.sound_layout()?;
        let length = self.standing.length;
        refuse_if(!(1..=MOST_LENGTH).contains(&length), 7)?;
        Ok(code)
    }

    /// 6, and 7 for L and the stripe.
    fn sound_stripe(&self) -> Answer<Code> {
        let code = self.sound_length()?;
        let size = code.n() * self.standing.length;
        refuse_if(self.stripe.len() != size, 7)?;
        Ok(code)
    }

    /// 8.
    fn sound_marks(&self, code: &Code) -> Answer<()> {
        refuse_if(self.standing.lost >> code.n() != 0, 8)
    }

    /// 6, 7 and 8 of a call that takes layout, standing and stripe.
    pub fn sound(&self) -> Answer<Code> {
        let code = self.sound_stripe()?;
        self.sound_marks(&code)?;
        Ok(code)
    }

    /// 10 and 14: the plan of a block that must be lost.
    fn plan_of_lost(&self, code: &Code, block: usize) -> Answer<Plan> {
        refuse_if(!is_lost(self.standing.lost, block), 10)?;
        self.plan_or_14(code, block)
    }

    fn plan_or_14(&self, code: &Code, block: usize) -> Answer<Plan> {
        plan(code, self.standing.lost, block).ok_or(Refusal {
            number: 14,
            block: None,
        })
    }
}

// The calls.
impl Store {
    /// Writes every redundant block from the data; marks nothing lost.
    pub fn encode(&mut self) -> Answer<()> {
        let code = self.sound_stripe()?;
        for block in code.k..code.n() {
            let row = code.blocks[block].row.iter().copied();
            let sum = self.combination(&row.enumerate().collect());
            self.write_block(block, &sum);
        }
        self.standing.lost = 0;
        Ok(())
    }

    pub fn lose(&mut self, block: usize) -> Answer<()> {
        let code = self.sound_length()?;
        self.sound_marks(&code)?;
        refuse_if(block >= code.n(), 9)?;
        refuse_if(is_lost(self.standing.lost, block), 11)?;
        self.standing.lost |= 1 << block;
        Ok(())
    }

    pub fn plan(&self, block: usize) -> Answer<Plan> {
        let code = self.sound_length()?;
        self.sound_marks(&code)?;
        refuse_if(block >= code.n(), 9)?;
        self.plan_of_lost(&code, block)
    }

    pub fn repair(&mut self, block: usize) -> Answer<()> {
        let code = self.sound()?;
        refuse_if(block >= code.n(), 9)?;
        let plan = self.plan_of_lost(&code, block)?;
        let bytes = self.combination(&plan);
        self.write_block(block, &bytes);
        self.standing.lost &= !(1 << block);
        Ok(())
    }

    /// All lost blocks are judged by the marks at entry, then repaired one
    /// by one in rising order.
    pub fn rebuild(&mut self) -> Answer<()> {
        let code = self.sound()?;
        let lost = self.standing.lost;
        let lost_blocks: Vec<usize> = (0..code.n()).filter(|&b| is_lost(lost, b)).collect();
        for &block in &lost_blocks {
            if plan(&code, lost, block).is_none() {
                return Err(Refusal {
                    number: 14,
                    block: Some(block),
                });
            }
        }
        for block in lost_blocks {
            self.repair(block)
                .expect("a repair leaves the others' plans");
        }
        Ok(())
    }

    /// Lays a difference into a data block and the survivors covering it.
    pub fn correct(&mut self, block: usize, offset: usize, difference: &[u8]) -> Answer<()> {
        let code = self.sound()?;
        let length = self.standing.length;
        let lost = self.standing.lost;
        refuse_if(block >= code.k, 9)?;
        refuse_if(is_lost(lost, block), 11)?;
        let size = difference.len();
        refuse_if(size > length || offset > length - size, 12)?;
        for at in code.survivors(lost) {
            let start = at * length + offset;
            let part = &mut self.stripe[start..start + size];
            add_scaled(part, code.blocks[at].row[block], difference);
        }
        Ok(())
    }

    /// The first reading call: a lost block goes into the spare.
    pub fn fetch(&mut self, block: usize) -> Answer<()> {
        if let Some(plan) = self.reading(block)? {
            self.spare = self.combination(&plan);
        }
        Ok(())
    }

    /// The second reading call: the part that holds the block, or an empty
    /// part where the first would refuse.
    pub fn view(&self, block: usize) -> &[u8] {
        match self.reading(block) {
            Err(_) => &[],
            Ok(None) => self.block(block),
            Ok(Some(_)) => &self.spare,
        }
    }

    pub fn price(&self, limits: Limits) -> Price {
        match self.figures(limits) {
            Err(refusal) => Price::Refused {
                number: refusal.number,
            },
            Ok((storage, _)) if storage > limits.storage => Price::TooLarge { storage },
            Ok((_, reads)) if reads > limits.reads => Price::TooManyReads { reads },
            Ok((storage, reads)) => Price::Fits { storage, reads },
        }
    }
}

// The parts the calls are made of.
impl Store {
    /// What both reading calls ask; a plan exactly if the block is lost.
    fn reading(&self, block: usize) -> Answer<Option<Plan>> {
        let code = self.sound()?;
        refuse_if(block >= code.n(), 9)?;
        refuse_if(self.spare.len() != self.standing.length, 13)?;
        match is_lost(self.standing.lost, block) {
            true => self.plan_or_14(&code, block).map(Some),
            false => Ok(None),
        }
    }

    /// Storage and mean reads, after 6, 15 and 16.
    fn figures(&self, limits: Limits) -> Answer<(f64, f64)> {
        let code = self.sound_layout()?;
        refuse_if(limits.storage.is_nan() || limits.reads.is_nan(), 15)?;
        let mut total = 0;
        for block in 0..code.k {
            let alone = plan(&code, 1 << block, block);
            refuse_if(alone.is_none(), 16)?;
            total += alone.map_or(0, |plan| plan.len());
        }
        let storage = code.n() as f64 / code.k as f64;
        let reads = total as f64 / code.k as f64;
        Ok((storage, reads))
    }

    fn block(&self, block: usize) -> &[u8] {
        let length = self.standing.length;
        &self.stripe[block * length..(block + 1) * length]
    }

    fn write_block(&mut self, block: usize, bytes: &[u8]) {
        let start = block * self.standing.length;
        self.stripe[start..start + bytes.len()].copy_from_slice(bytes);
    }

    /// The sum of blocks of the stripe, each times its coefficient.
    fn combination(&self, plan: &Plan) -> Vec<u8> {
        let mut sum = vec![0; self.standing.length];
        for &(block, factor) in plan {
            add_scaled(&mut sum, factor, self.block(block));
        }
        sum
    }
}
