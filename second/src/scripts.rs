//! Scripts made from a seed. A writer runs what it writes, so that it knows
//! the store's state and can aim: at lost blocks, at the edges of a block, at
//! the true price. A layout is altered in one field only before the next
//! accepted note, as two altered fields might give a layout again.

use crate::code::Code;
use crate::commands::{Command, LETTERS, MOST_SPARE, MOST_STRIPE};
use crate::drill::Drill;
use crate::inputs::{damaged_note, over_note, some_marks, sound_note};
use crate::note;
use crate::random::Random;
use crate::store::{Limits, Price};

mod sample;

pub use sample::sample;

/// No script made from a seed is longer.
pub const MOST_BYTES: usize = 59_500;

/// A stripe that may be written often.
const SMALL_STRIPE: usize = 1_200;

struct Writer<'a> {
    random: &'a mut Random,
    drill: Drill,
    bytes: Vec<u8>,
    /// The script gets no longer than this; then it is full.
    most: usize,
    full: bool,
    /// The note accepted last, its k and n, and the figures of its price.
    note: Vec<u8>,
    k: usize,
    n: usize,
    figures: Option<(f64, f64)>,
    /// The L that a sound standing has.
    length: usize,
}

impl Writer<'_> {
    fn new(random: &mut Random, most: usize) -> Writer<'_> {
        Writer {
            random,
            drill: Drill::new(),
            bytes: Vec::new(),
            most,
            full: false,
            note: Vec::new(),
            k: 1,
            n: 1,
            figures: None,
            length: 1,
        }
    }

    /// Writes a command, and runs it; nothing once the script is full.
    fn put(&mut self, command: Command) {
        let bytes = command.bytes();
        self.full |= self.bytes.len() + bytes.len() > self.most;
        if !self.full {
            self.bytes.extend(bytes);
            self.drill.run(&command);
        }
    }

    fn put_note(&mut self, note: Vec<u8>) {
        let before = self.drill.store.layout.clone();
        self.put(Command::Note(note.clone()));
        let store = &self.drill.store;
        let Ok(layout) = note::read(&note) else {
            return;
        };
        if self.full {
            return;
        }
        let code = Code::of(&layout);
        (self.k, self.n, self.note) = (code.k, code.n(), note);
        if before == layout && self.figures.is_some() {
            return;
        }
        let no_limits = Limits {
            storage: f64::INFINITY,
            reads: f64::INFINITY,
        };
        self.figures = match store.price(no_limits) {
            Price::Fits { storage, reads } => Some((storage, reads)),
            _ => None,
        };
    }

    fn lost(&self) -> u64 {
        self.drill.store.standing.lost
    }

    fn put_standing(&mut self, length: usize, lost: u64) {
        let length = length as u64;
        self.put(Command::Standing { length, lost });
    }

    fn put_stripe(&mut self, size: usize) {
        let stripe = self.random.bytes(size.min(MOST_STRIPE));
        self.put(Command::Stripe(stripe));
    }

    fn put_spare(&mut self, size: usize) {
        let spare = self.random.bytes(size.min(MOST_SPARE));
        self.put(Command::Spare(spare));
    }
}

// What calls are asked about.
impl Writer<'_> {
    /// A block number: mostly one of the layout's, at times an edge.
    fn block(&mut self, edges: usize) -> u64 {
        let (k, n) = (self.k as u64, self.n as u64);
        if self.random.chance(edges) {
            let far = [n, n + 1, u64::MAX, 63, 64, k, n - 1, 1 << 63];
            // Numbers that come to lie inside where high bits are dropped.
            let high = self.random.pick(&[64, 256, 1 << 16, 1 << 32]);
            return match self.random.chance(70) {
                true => self.random.pick(&far),
                false => high + self.random.below(self.n) as u64,
            };
        }
        self.random.below(self.n) as u64
    }

    /// A block number for a call that wants a lost block.
    fn lost_block(&mut self, edges: usize) -> u64 {
        let lost = self.lost();
        let blocks: Vec<u64> = (0..self.n as u64).filter(|b| lost >> b & 1 == 1).collect();
        match blocks.is_empty() || self.random.chance(25) {
            true => self.block(edges),
            false => self.random.pick(&blocks),
        }
    }

    /// A block number for a correction.
    fn data_block(&mut self, edges: usize) -> u64 {
        match self.random.chance(10) {
            true => self.block(edges),
            false => self.random.below(self.k) as u64,
        }
    }

    /// An offset and a difference: inside, empty, just fitting, one past the
    /// end, or far away.
    fn difference(&mut self) -> (u64, Vec<u8>) {
        let length = self.length;
        let most = match self.random.chance(5) {
            true => length,
            false => length.min(16),
        };
        let size = self.random.between(0, most);
        let last = (length - size) as u64;
        let (offset, size) = match self.random.below(20) {
            0..=9 => (self.random.between(0, length - size) as u64, size),
            10 | 11 => (last, size),
            12 | 13 => (last + 1, size),
            14 => (0, if length <= 64 { length + 1 } else { size }),
            15 => (self.random.between(0, length) as u64, 0),
            16 => (length as u64 + self.random.below(2) as u64, 0),
            // The sum passes 2^64 and would come to lie inside again.
            17 => ((size as u64).wrapping_neg(), size),
            18 => (u64::MAX - self.random.below(3) as u64, size),
            _ => {
                let high = self.random.pick(&[1 << 16, 1 << 32, 1 << 63]);
                (high + self.random.below(length) as u64, size)
            }
        };
        (offset, self.random.bytes(size))
    }

    /// The bits of a limit near a figure, or of anything else.
    fn limit(&mut self, figure: f64) -> u64 {
        let quiet = f64::NAN.to_bits() & !(1 << 63);
        match self.random.below(20) {
            0..=3 => figure.to_bits(),
            4 | 5 => figure.to_bits() - 1,
            6 | 7 => figure.to_bits() + 1,
            8..=11 => f64::INFINITY.to_bits(),
            12 => f64::NEG_INFINITY.to_bits(),
            13 => self
                .random
                .pick(&[quiet, quiet | 1 << 63, u64::MAX, u64::MAX >> 1]),
            14 => 0x7FF << 52 | self.random.draw() << 63 | self.random.between(1, 9) as u64,
            15 => self.random.pick(&[0, 1 << 63, 1, 1 << 63 | 1]),
            16 => (-figure).to_bits(),
            17 => (figure + self.random.between(0, 400) as f64 / 100.0 - 2.0).to_bits(),
            18 => self
                .random
                .pick(&[1.0, f64::MAX, f64::MIN, 1.0 / figure])
                .to_bits(),
            _ => self.random.draw(),
        }
    }

    fn price(&mut self) -> Command {
        let (storage, reads) = self.figures.unwrap_or((self.n as f64, 1.0));
        Command::Price {
            storage: self.limit(storage),
            reads: self.limit(reads),
        }
    }

    fn correction(&mut self, edges: usize) -> Command {
        let block = self.data_block(edges);
        let (offset, difference) = self.difference();
        Command::Correct {
            block,
            offset,
            difference,
        }
    }

    fn call(&mut self, letter: u8, edges: usize) -> Command {
        match letter {
            b'E' => Command::Encode,
            b'O' => Command::Lose(self.block(edges)),
            b'P' => Command::Plan(self.lost_block(edges)),
            b'R' => Command::Repair(self.lost_block(edges)),
            b'U' => Command::Rebuild,
            b'D' => self.correction(edges),
            b'F' => Command::Fetch(self.lost_block(edges)),
            b'V' => Command::View(self.lost_block(edges)),
            b'C' => self.price(),
            b'J' => Command::Junk(self.random.byte()),
            _ => Command::State,
        }
    }
}

// The parts of a script.
impl Writer<'_> {
    /// A layout, a stripe for it, and what is done with them.
    fn chapter(&mut self, longest: usize) {
        self.layout();
        self.fresh_stripe(longest);
        for _ in 0..self.random.between(2, 7) {
            match self.random.below(9) {
                0..=2 => self.calls(),
                3 | 4 => self.orders(),
                5..=7 => self.trouble(),
                _ => self.notes_and_prices(),
            }
        }
    }

    fn layout(&mut self) {
        if self.random.chance(30) {
            let note = damaged_note(self.random);
            self.put_note(note);
            let letter = self.random.pick(b"EOPRUDFVC");
            let call = self.call(letter, 20);
            self.put(call);
        }
        let note = match self.random.chance(6) {
            // Layouts in which a data block lost alone has no plan.
            true => vec![4, 0, 1, 0, 0, self.random.between(1, 4) as u8],
            false => sound_note(self.random),
        };
        self.put_note(note);
    }

    /// L, the stripe and the spare; the stripe mostly an encoding.
    fn fresh_stripe(&mut self, longest: usize) {
        let left = self.most.saturating_sub(self.bytes.len());
        let fits = (left / 3 / self.n).clamp(1, 1024);
        self.length = match self.random.below(10) {
            0..=6 => self.random.between(1, 6),
            7 | 8 => self.random.between(1, 16),
            _ => self.random.between(1, longest),
        };
        self.length = self.length.min(fits);
        let old_marks = self.random.pick(&[0, 0, 1, u64::MAX]);
        self.put_standing(self.length, old_marks);
        self.put_stripe(self.n * self.length);
        self.put_spare(self.length);
        match self.random.chance(80) {
            true => self.put(Command::Encode),
            false => {
                let marks = some_marks(self.random, self.k, self.n);
                self.put_standing(self.length, marks);
            }
        }
    }

    /// A run of calls, the marks set anew where too much is lost.
    fn calls(&mut self) {
        let letters = b"EOOOOOOPPPPRRRRRRUUDDDDDDDFFFFVVVCCJJT";
        for _ in 0..self.random.between(10, 50) {
            let bound = self.n - self.k + 2;
            let many = self.lost().count_ones() as usize > bound;
            if self.random.chance(if many { 25 } else { 2 }) {
                let marks = some_marks(self.random, self.k, self.n);
                self.put_standing(self.length, marks);
            }
            let letter = self.random.pick(letters);
            let call = self.call(letter, 7);
            self.put(call);
        }
    }

    fn notes_and_prices(&mut self) {
        for _ in 0..self.random.between(1, 6) {
            let call = self.price();
            self.put(call);
        }
        let note = self.note.clone();
        for _ in 0..self.random.between(1, 4) {
            let other = match self.random.chance(20) {
                true => over_note(self.random),
                false => damaged_note(self.random),
            };
            self.put_note(other);
        }
        self.put_note(note);
    }

    /// Losses, then one list of repairs and corrections in several orders
    /// from the same state, other junk standing where blocks are lost.
    fn orders(&mut self) {
        self.put(Command::Encode);
        self.losses();
        let stripe = self.drill.store.stripe.clone();
        let lost = self.lost();
        let mut list = self.list(lost);
        let small = stripe.len() <= SMALL_STRIPE;
        let mut ends = Vec::new();
        for order in 0..if small { self.random.between(2, 3) } else { 2 } {
            if order > 0 {
                self.put(Command::Stripe(stripe.clone()));
                self.put_standing(self.length, lost);
            }
            let junk = self.random.byte();
            self.put(Command::Junk(junk));
            self.shuffle(&mut list);
            for command in &list {
                self.put(command.clone());
            }
            self.put(Command::State);
            if self.full {
                return;
            }
            ends.push(self.survivors());
        }
        // A list ends alike in whatever order it runs.
        assert!(ends.iter().all(|end| *end == ends[0]));
    }

    /// Each block that is not lost, with its bytes.
    fn survivors(&self) -> Vec<(usize, Vec<u8>)> {
        let lost = self.lost();
        let blocks = self.drill.store.stripe.chunks(self.length).enumerate();
        let survive = blocks.filter(|(block, _)| lost >> block & 1 == 0);
        survive
            .map(|(block, bytes)| (block, bytes.to_vec()))
            .collect()
    }

    fn losses(&mut self) {
        let marks = some_marks(self.random, self.k, self.n);
        for block in (0..self.n as u64).filter(|b| marks >> b & 1 == 1) {
            self.put(Command::Lose(block));
            if self.random.chance(15) {
                let letter = self.random.pick(b"RDJ");
                let call = self.call(letter, 0);
                self.put(call);
            }
        }
    }

    /// Repairs of no block twice, and corrections of no lost block.
    fn list(&mut self, lost: u64) -> Vec<Command> {
        let mut list = Vec::new();
        for block in 0..=self.n as u64 {
            let chance = if lost >> block & 1 == 1 { 85 } else { 5 };
            if self.random.chance(chance) {
                list.push(Command::Repair(block));
            }
        }
        for _ in 0..self.random.between(0, 7) {
            let call = self.correction(5);
            let Command::Correct { block, .. } = call else {
                continue;
            };
            if block >= self.k as u64 || lost >> block & 1 == 0 {
                list.push(call);
            }
        }
        list
    }

    fn shuffle(&mut self, list: &mut [Command]) {
        for at in (1..list.len()).rev() {
            list.swap(at, self.random.below(at + 1));
        }
    }
}

/// What is wrong while calls are made.
struct Wrong {
    layout: bool,
    length: bool,
    stripe: bool,
    marks: bool,
    spare: bool,
}

// Calls on things that are wrong in one or more ways.
impl Writer<'_> {
    fn trouble(&mut self) {
        let mut wrong = Wrong {
            layout: self.random.chance(25),
            length: self.random.chance(25),
            stripe: self.random.chance(25),
            marks: self.random.chance(35),
            spare: self.random.chance(35),
        };
        let large = self.n * self.length > SMALL_STRIPE;
        wrong.stripe &= !large || self.random.chance(10);
        let stripe = self.drill.store.stripe.clone();
        self.make_wrong(&wrong);
        self.all_calls();
        if wrong.layout {
            self.mend_layout();
        }
        if wrong.length || wrong.marks || wrong.stripe {
            self.all_calls();
        }
        let marks = some_marks(self.random, self.k, self.n);
        self.put_standing(self.length, marks);
        if wrong.stripe || self.drill.store.stripe.len() != stripe.len() {
            self.put(Command::Stripe(stripe));
        }
        if wrong.spare {
            self.all_calls();
            self.put_spare(self.length);
        }
    }

    fn make_wrong(&mut self, wrong: &Wrong) {
        if wrong.layout {
            self.alter();
        }
        let mut length = self.length;
        if wrong.length {
            let far = [0, 0, 1025, 1026, 2048, 1 << 63, usize::MAX];
            // With these the stripe fits where high bits are dropped.
            let high = self.random.pick(&[1 << 16, 1 << 32, 1 << 62, 1 << 63]);
            length = match self.random.chance(70) {
                true => self.random.pick(&far),
                false => high + self.length,
            };
        }
        let mut marks = some_marks(self.random, self.k, self.n);
        if wrong.marks {
            let high = self.random.between(self.n, 63);
            marks = match self.random.below(6) {
                0 | 1 => marks | 1 << self.n,
                2 => marks | 1 << 63,
                3 => 1 << high,
                4 => u64::MAX,
                _ => self.random.draw() | 1 << high,
            };
        }
        self.put_standing(length, marks);
        if wrong.stripe {
            self.wrong_stripe(length);
        }
        if wrong.spare {
            let size = self.length;
            let sizes = [size - 1, size + 1, 0, 2 * size, size + 256];
            let size = match self.random.chance(2) {
                true => MOST_SPARE,
                false => self.random.pick(&sizes),
            };
            self.put_spare(size);
        }
    }

    /// One field, at times more than once; at times a field there is not.
    fn alter(&mut self) {
        let field = match self.random.below(4) {
            0 => self.random.below(3),
            1 => self.random.pick(&[3, 4, 9, 10, 11, 122, 123, 129, 130]),
            _ => self.random.between(0, 130),
        };
        for _ in 0..self.random.pick(&[1, 1, 1, 2, 3]) {
            self.put(Command::Alter(field as u8));
        }
        self.alter_nothing();
    }

    fn alter_nothing(&mut self) {
        if self.random.chance(25) {
            let field = match self.random.chance(40) {
                true => self.random.pick(&[131, 255]),
                false => self.random.between(131, 255),
            };
            self.put(Command::Alter(field as u8));
        }
    }

    /// One byte short, one long, a block short, more than 64 blocks, empty, or
    /// for a wrong L and few blocks of the size that this L asks for.
    fn wrong_stripe(&mut self, length: usize) {
        let size = self.n * self.length;
        let asked = self.n.saturating_mul(length);
        let size = match self.random.below(7) {
            _ if length != self.length && asked <= 6_000 => asked,
            0 | 1 => size - 1,
            2 | 3 => size + 1,
            4 => size - self.length,
            5 if self.length <= 16 => self.random.between(63, 66) * self.length,
            _ => 0,
        };
        self.put_stripe(size);
    }

    /// A refused note changes nothing; an accepted one mends the layout.
    fn mend_layout(&mut self) {
        if self.random.chance(40) {
            self.put(Command::Note(vec![4, 0, 1, 0, 17]));
            self.all_calls();
        }
        self.put_note(self.note.clone());
        self.alter_nothing();
    }

    /// Some of the calls, each once, in any order.
    fn all_calls(&mut self) {
        let mut letters = *b"EOPRUDFVCTJ";
        for at in (1..letters.len()).rev() {
            letters.swap(at, self.random.below(at + 1));
        }
        for letter in letters {
            if self.random.chance(60) {
                let call = self.call(letter, 15);
                self.put(call);
            }
        }
    }
}

// The ends of damaged scripts. What follows the fault must not be run.
impl Writer<'_> {
    fn damage(&mut self, which: usize) {
        let room = MOST_BYTES - self.bytes.len();
        match which % 4 {
            0 => return self.cut(),
            1 => {
                let other = |byte: &u8| !LETTERS.as_bytes().contains(byte);
                let bytes: Vec<u8> = (0..=255).filter(other).collect();
                let byte = match self.random.chance(50) {
                    true => self.random.pick(b"etnx \n\0\xFF"),
                    false => self.random.pick(&bytes),
                };
                self.bytes.push(byte);
            }
            2 => {
                // one byte too long: a bound that is one off lets no more than that through
                let spare = self.random.bytes(MOST_SPARE + 1);
                self.bytes.extend(Command::Spare(spare).bytes());
            }
            _ if room > MOST_STRIPE + 100 => {
                let size = MOST_STRIPE + self.random.pick(&[1, 1, 1, 2]);
                let stripe = self.random.bytes(size);
                self.bytes.extend(Command::Stripe(stripe).bytes());
            }
            _ => {
                self.bytes.push(b'B');
                let size = self.random.pick(&[49_153u32, 65_536, u32::MAX]);
                self.bytes.extend(size.to_le_bytes());
            }
        }
        self.bytes.extend(b"TEUT");
    }

    /// A command that the script ends inside.
    fn cut(&mut self) {
        let letter = self.random.pick(b"OPRDFVCNSB");
        let command = match letter {
            b'N' => Command::Note(sound_note(self.random)),
            b'S' => Command::Standing { length: 1, lost: 1 },
            b'B' => Command::Stripe(vec![b'T'; 9]),
            _ => self.call(letter, 0),
        };
        let bytes = command.bytes();
        let size = self.random.between(1, bytes.len() - 1);
        self.bytes.extend(&bytes[..size]);
    }
}

/// The largest layout, and a stripe and a spare for it.
fn put_largest(writer: &mut Writer) {
    writer.put_note(vec![4, 0, 1, 0, 0x10, 0x20]);
    writer.length = 1024;
    writer.put_standing(1024, 0);
    writer.put_spare(1024);
    writer.put_stripe(MOST_STRIPE);
    writer.put(Command::Encode);
}

/// The largest layout and stripe there are, and calls on them.
fn largest(random: &mut Random) -> Vec<u8> {
    let mut writer = Writer::new(random, MOST_BYTES);
    put_largest(&mut writer);
    for _ in 0..40 {
        writer.calls();
    }
    writer.bytes
}

/// Chapters up to a size, the block lengths up to `longest`.
fn chapters(random: &mut Random, most: usize, longest: usize) -> Writer<'_> {
    let mut writer = Writer::new(random, most);
    while !writer.full {
        writer.chapter(longest);
    }
    writer
}

const KINDS: u64 = 10;

/// Script `index` of the series of `seed`. The kinds take turns.
pub fn script(seed: u64, index: u64) -> Vec<u8> {
    let random = &mut Random::numbered(seed ^ 0xD811, index);
    let round = (index / KINDS) as usize;
    let most = random.between(30_000, 57_000);
    match index % KINDS {
        3 => chapters(random, most, 1024).bytes,
        6 if round % 3 == 0 => largest(random),
        kind @ (4 | 7 | 9) => {
            let most = if kind == 9 { 50_000 } else { 9_000 };
            let most = random.between(20, most);
            let mut writer = chapters(random, most, 64);
            writer.damage(3 * round + kind as usize);
            writer.bytes
        }
        _ => chapters(random, most, 64).bytes,
    }
}
