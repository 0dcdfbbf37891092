//! Inputs for the program, made from a seed: sound ones of all shapes, and
//! damaged ones of every kind. Nothing here reads a note; a note is written
//! from records that may be unsound in one place and right round it.

use crate::random::Random;

/// A record to be written. `shift` is added to its right length.
#[derive(Clone)]
struct Record {
    kind: u16,
    head: Vec<u8>,
    members: Vec<Record>,
    tail: Vec<u8>,
    shift: i32,
}

impl Record {
    fn new(kind: u16, head: Vec<u8>, members: Vec<Record>) -> Record {
        Record {
            kind,
            head,
            members,
            tail: Vec::new(),
            shift: 0,
        }
    }

    fn leaf() -> Record {
        Record::new(1, vec![0, 1], Vec::new())
    }

    fn branch(members: usize) -> Record {
        Record::new(2, vec![0], vec![Record::leaf(); members])
    }

    fn bytes(&self) -> Vec<u8> {
        let mut body = self.head.clone();
        for member in &self.members {
            body.extend(member.bytes());
        }
        body.extend(&self.tail);
        let length = (2 + body.len() as i32 + self.shift) as u16;
        let mut bytes = length.to_le_bytes().to_vec();
        bytes.extend(self.kind.to_le_bytes());
        bytes.extend(body);
        bytes
    }

    /// The paths of all records inside, this one first, in note order.
    fn paths(&self) -> Vec<Vec<usize>> {
        let mut paths = vec![Vec::new()];
        for (number, member) in self.members.iter().enumerate() {
            for inner in member.paths() {
                let mut path = vec![number];
                path.extend(inner);
                paths.push(path);
            }
        }
        paths
    }

    fn at(&mut self, path: &[usize]) -> &mut Record {
        path.iter()
            .fold(self, |record, &number| &mut record.members[number])
    }

    fn leaf_paths(&mut self) -> Vec<Vec<usize>> {
        let mut paths = self.paths();
        paths.retain(|path| self.at(path).kind == 1);
        paths
    }

    /// The most rows on a path from here to a leaf.
    fn rows(&self) -> usize {
        let inside = self.members.iter().map(Record::rows).max();
        usize::from(self.head[0]) + inside.unwrap_or(0)
    }

    fn data(&self) -> usize {
        match self.kind {
            1 => usize::from(self.head[1]),
            _ => self.members.iter().map(Record::data).sum(),
        }
    }

    fn redundant(&self) -> usize {
        let inside: usize = self.members.iter().map(Record::redundant).sum();
        usize::from(self.head[0]) + inside
    }
}

/// What a tree is to come to, as near as it goes.
struct Aim {
    nesting: usize,
    groups: usize,
    data: usize,
    redundant: usize,
    /// No path gets more rows than this ..
    rows: usize,
    /// .. and one path gets as many of the rows as it takes.
    one_path: bool,
}

fn small_aim(random: &mut Random) -> Aim {
    let nesting = random.between(1, 3);
    Aim {
        nesting,
        groups: random.between(1, 5),
        data: random.between(1, 10),
        redundant: random.between(0, 6),
        rows: 16,
        one_path: false,
    }
}

fn wide_aim(random: &mut Random) -> Aim {
    let data = random.between(4, 32);
    Aim {
        nesting: random.between(1, 4),
        groups: random.between(1, 16),
        data,
        redundant: random.between(1, (48 - data).min(20)),
        rows: 16,
        one_path: random.chance(20),
    }
}

/// All bounds at once, or nearly.
fn full_aim(random: &mut Random) -> Aim {
    let data = if random.chance(60) {
        32
    } else {
        random.between(20, 32)
    };
    let all = 48 - data;
    Aim {
        nesting: if random.chance(70) {
            4
        } else {
            random.between(1, 4)
        },
        groups: if random.chance(60) {
            16
        } else {
            random.between(1, 16)
        },
        data,
        redundant: if random.chance(60) {
            all
        } else {
            random.between(1, all)
        },
        rows: 16,
        one_path: random.chance(40),
    }
}

/// One bound passed by one.
fn over_aim(random: &mut Random, which: usize) -> Aim {
    let mut aim = small_aim(random);
    match which {
        0 => (aim.nesting, aim.groups) = (5, random.between(9, 16)),
        1 => (aim.nesting, aim.groups) = (random.between(2, 4), 17),
        2 => aim.data = 33,
        3 => (aim.data, aim.redundant, aim.groups) = (32, 17, 5),
        _ => (aim.rows, aim.redundant, aim.one_path) = (17, 17, true),
    }
    aim
}

fn tree(random: &mut Random, aim: &Aim) -> Record {
    let mut top = Record::leaf();
    spread_groups(random, aim, &mut top);
    let leaves = top.leaf_paths();
    for _ in leaves.len()..aim.data {
        let path = &leaves[random.below(leaves.len())];
        top.at(path).head[1] += 1;
    }
    spread_rows(random, aim, &mut top);
    top
}

/// Splits leaves, the deepest first until the nesting is reached.
fn spread_groups(random: &mut Random, aim: &Aim, top: &mut Record) {
    let mut groups = 1;
    let mut nesting = 1;
    while groups < aim.groups && aim.nesting > 1 {
        let mut leaves = top.leaf_paths();
        if nesting < aim.nesting {
            leaves.retain(|path| path.len() + 1 == nesting);
            nesting += 1;
        } else {
            leaves.retain(|path| path.len() + 1 < aim.nesting);
        }
        let left = aim.groups - groups;
        if left == 1 || leaves.is_empty() {
            if groups > 1 {
                top.members.push(Record::leaf());
                groups += 1;
                continue;
            }
            break;
        }
        let most = if random.chance(15) { 9 } else { 3 };
        let members = random.between(2, most).min(left);
        let path = &leaves[random.below(leaves.len())];
        *top.at(path) = Record::branch(members);
        groups += members;
    }
}

fn spread_rows(random: &mut Random, aim: &Aim, top: &mut Record) {
    let mut paths = top.paths();
    let leaves = top.leaf_paths();
    let one = leaves[random.below(leaves.len())].clone();
    let mut left = aim.redundant;
    for attempt in 0..200 {
        if left == 0 {
            break;
        }
        if attempt == 0 && aim.one_path {
            paths = (0..=one.len()).map(|size| one[..size].to_vec()).collect();
        }
        if attempt == 60 {
            paths = top.paths();
        }
        let path = &paths[random.below(paths.len())];
        top.at(path).head[0] += 1;
        if top.rows() <= aim.rows {
            left -= 1;
        } else {
            top.at(path).head[0] -= 1;
        }
    }
}

fn sound_tree(random: &mut Random) -> Record {
    let aim = match random.below(10) {
        0..=5 => small_aim(random),
        6..=8 => wide_aim(random),
        _ => full_aim(random),
    };
    tree(random, &aim)
}

fn some_length(random: &mut Random) -> usize {
    match random.below(20) {
        0..=14 => random.between(1, 4),
        15..=17 => random.between(5, 64),
        18 => random.between(65, 1024),
        _ => random.pick(&[1023, 1024]),
    }
}

/// A pattern of lost blocks: none, few, about as many as are redundant, a
/// run of neighbours, most or all.
pub fn some_marks(random: &mut Random, data: usize, blocks: usize) -> u64 {
    let spare = blocks - data;
    let size = match random.below(12) {
        0 => 0,
        1 | 2 => 1,
        3..=5 => random.between(1, 4),
        6 | 7 => spare,
        8 => spare + random.between(1, 2),
        9 => spare.saturating_sub(random.between(1, 2)),
        10 => random.between(0, blocks),
        _ => blocks - random.pick(&[0, 0, 1, 2]).min(blocks),
    };
    let mut marks = 0;
    let run = random.chance(20);
    let start = random.below(blocks);
    while u64::count_ones(marks) < size.min(blocks) as u32 {
        let next = match run {
            true => (start + u64::count_ones(marks) as usize) % blocks,
            false => random.below(blocks),
        };
        marks |= 1 << next;
    }
    marks
}

/// What follows the note: L, the marks, and as many bytes as given.
fn rest(random: &mut Random, length: usize, marks: u64, stripe: usize) -> Vec<u8> {
    let mut rest = (length as u16).to_le_bytes().to_vec();
    rest.extend(marks.to_le_bytes());
    rest.extend(random.bytes(stripe));
    rest
}

/// A right end for a sound tree.
fn sound_rest(random: &mut Random, top: &Record) -> Vec<u8> {
    let data = top.data();
    let blocks = data + top.redundant();
    let length = some_length(random);
    let marks = some_marks(random, data, blocks);
    rest(random, length, marks, blocks * length)
}

fn whole(aim: Aim, random: &mut Random) -> Vec<u8> {
    let top = tree(random, &aim);
    let mut input = top.bytes();
    input.extend(sound_rest(random, &top));
    input
}

/// A record of the tree, any one with the same chance.
fn some_record<'a>(random: &mut Random, top: &'a mut Record) -> &'a mut Record {
    let paths = top.paths();
    let path = &paths[random.below(paths.len())];
    top.at(path)
}

fn wrong_kind(random: &mut Random, top: &mut Record) {
    let record = some_record(random, top);
    record.kind = match random.below(6) {
        0 => 0,
        1 => 3,
        2 => record.kind ^ 3,
        3 => record.kind | 0x100,
        4 => record.kind << 8,
        _ => random.draw() as u16,
    };
}

fn wrong_length(random: &mut Random, top: &mut Record) {
    let record = some_record(random, top);
    let right = record.bytes().len() as i32 - 2;
    record.shift = match random.below(6) {
        0 | 1 => random.pick(&[-1, 1]),
        2 => random.pick(&[-6, -3, -2, 2, 3, 6]),
        3 => -right + random.pick(&[0, 1, 2, 3]),
        4 => -right + random.pick(&[253, 254, 255, 256]),
        _ => -right + random.below(255) as i32,
    };
}

fn extra_bytes(random: &mut Random, top: &mut Record) {
    let record = some_record(random, top);
    let size = random.pick(&[1, 1, 2, 3, 4, 5, 6]);
    record.tail = match random.chance(50) {
        true => random.bytes(size),
        false => Record::leaf().bytes()[..size].to_vec(),
    };
}

/// The body is wrong, and every length round it right.
fn wrong_body(random: &mut Random, top: &mut Record) {
    let record = some_record(random, top);
    let leaf = record.head.len() == 2;
    match (leaf, random.below(5)) {
        (true, 0 | 1) => record.head[1] = 0,
        (false, 0 | 1) => record.members.truncate(random.below(2)),
        (true, 2) => record.head[1] = random.pick(&[33, 49, 128, 255]),
        (_, 2 | 3) => record.head[0] = random.pick(&[16, 17, 128, 255]),
        (true, _) => record.head.truncate(random.below(2)),
        _ => {
            record.members.clear();
            record.head.clear();
        }
    }
}

/// A note that is accepted.
pub fn sound_note(random: &mut Random) -> Vec<u8> {
    sound_tree(random).bytes()
}

/// A note that passes a bound by one.
pub fn over_note(random: &mut Random) -> Vec<u8> {
    let which = random.below(5);
    let aim = over_aim(random, which);
    tree(random, &aim).bytes()
}

/// A note with one or two damages, or bytes behind it, or a cut. Some of
/// these are accepted all the same.
pub fn damaged_note(random: &mut Random) -> Vec<u8> {
    let mut top = sound_tree(random);
    match random.below(8) {
        0 => return truncated(random),
        1 => {
            let mut note = top.bytes();
            let size = random.between(1, 7);
            note.extend(random.bytes(size));
            return note;
        }
        2 => return over_note(random),
        3 => nested_or_long(random, &mut top),
        4 | 5 => wrong_body(random, &mut top),
        _ => random.pick(&DAMAGES)(random, &mut top),
    }
    if random.chance(30) {
        random.pick(&DAMAGES)(random, &mut top);
    }
    top.bytes()
}

/// A tree that nests too deep, or one with far too many members.
fn nested_or_long(random: &mut Random, top: &mut Record) {
    *top = Record::branch(random.pick(&[2, 15, 16, 41]));
    for _ in 0..random.between(0, 6) {
        *top = Record::new(2, vec![0], vec![Record::leaf(), top.clone()]);
    }
}

type Damage = fn(&mut Random, &mut Record);

/// The damages that leave a record's head as it is.
const DAMAGES: [Damage; 3] = [wrong_kind, wrong_length, extra_bytes];

fn damaged(random: &mut Random, damages: &[Damage]) -> Vec<u8> {
    let mut top = sound_tree(random);
    let rest = sound_rest(random, &top);
    for damage in damages {
        damage(random, &mut top);
    }
    let mut input = top.bytes();
    input.extend(rest);
    input
}

/// Cut off inside the note, or right at its end.
fn truncated(random: &mut Random) -> Vec<u8> {
    let mut note = sound_tree(random).bytes();
    let size = match random.chance(30) {
        true => random.below(note.len().min(5)),
        false => random.between(0, note.len()),
    };
    note.truncate(size);
    note
}

/// One byte of a sound input's note is another.
fn byte_changed(random: &mut Random) -> Vec<u8> {
    let top = sound_tree(random);
    let mut input = top.bytes();
    let at = random.below(input.len());
    input[at] = match random.below(4) {
        0 => input[at].wrapping_add(1),
        1 => input[at].wrapping_sub(1),
        2 => input[at] ^ 1 << random.below(8),
        _ => random.byte(),
    };
    input.extend(sound_rest(random, &top));
    input
}

/// A sound note and a wrong count of bytes, or a wrong L: one byte short, one
/// more, L cut off, the marks cut off, L = 0, L = 1,025, L far too large, and
/// a wrong count with marks that are wrong too.
fn wrong_size(random: &mut Random, which: usize) -> Vec<u8> {
    let top = sound_tree(random);
    let blocks = top.data() + top.redundant();
    let mut input = top.bytes();
    match which {
        0 => {
            input.extend(sound_rest(random, &top));
            input.pop();
        }
        1 => {
            input.extend(sound_rest(random, &top));
            input.push(random.byte());
        }
        2 => input.push(random.byte()),
        3 => {
            let size = random.below(10);
            input.extend(rest(random, 1, 0, 0)[..size].to_vec());
        }
        4 => input.extend(rest(random, 0, 0, 0)),
        5 => input.extend(rest(random, 1025, 0, blocks * 1025)),
        6 => {
            let length = random.pick(&[1026, 0x0401, 0x8001, 0xFFFF]);
            input.extend(rest(random, length, 1, blocks));
        }
        _ => {
            let length = random.between(1, 4);
            let marks = random.draw() | 1 << 63;
            let off = random.pick(&[0, blocks * length - 1, blocks * (length + 1)]);
            input.extend(rest(random, length, marks, off));
        }
    }
    input
}

/// Marks at n or above, up to bit 63; sometimes only the highest sound one.
fn high_marks(random: &mut Random) -> Vec<u8> {
    let top = sound_tree(random);
    let blocks = top.data() + top.redundant();
    let length = some_length(random);
    let low = some_marks(random, top.data(), blocks);
    let marks = match random.below(6) {
        0 => low | 1 << blocks,
        1 => low | 1 << 63,
        2 => 1 << random.between(blocks, 63),
        3 => u64::MAX,
        4 => 1 << (blocks - 1),
        _ => random.draw(),
    };
    let mut input = top.bytes();
    input.extend(rest(random, length, marks, blocks * length));
    input
}

const ODDITIES: usize = 13;

/// Inputs that are far from any sound one.
fn oddity(random: &mut Random, which: usize) -> Vec<u8> {
    match which % ODDITIES {
        0 => Vec::new(),
        1 => vec![random.byte()],
        2 => {
            let length = random.pick(&[255, 256, 257, 0x0F00, 0xFFFF]);
            length_alone(random, length)
        }
        3 => {
            let mut input = whole(small_aim_of(5), random);
            input[1] = random.between(1, 255) as u8;
            input
        }
        4 => {
            let mut input = whole(small_aim_of(5), random);
            input.resize(100_000, 0);
            input
        }
        5 => random.bytes(100_000),
        6 => vec![random.pick(&[0, 1, 2]); 100_000],
        7 => (0..60).map(|_| random.pick(&[0, 0, 1, 2, 4])).collect(),
        8 => nested_chain(random),
        9 => long_branch(random),
        10 => record_start(random),
        11 => {
            let length = random.pick(&[254, 255, 255]);
            length_alone(random, length)
        }
        _ => {
            let length = random.byte();
            length_alone(random, u16::from(length))
        }
    }
}

/// A length, and then anything: nothing, a kind, or some more.
fn length_alone(random: &mut Random, length: u16) -> Vec<u8> {
    let mut input = length.to_le_bytes().to_vec();
    let size = random.pick(&[0, 1, 2, 10, 60]);
    input.extend(random.bytes(size));
    input
}

fn small_aim_of(groups: usize) -> Aim {
    Aim {
        nesting: 2,
        groups,
        data: 6,
        redundant: 4,
        rows: 16,
        one_path: false,
    }
}

/// Branches in branches, far deeper than allowed.
fn nested_chain(random: &mut Random) -> Vec<u8> {
    let mut record = Record::branch(2);
    for _ in 0..random.between(4, 20) {
        record = Record::new(2, vec![0], vec![Record::leaf(), record]);
    }
    record.bytes()
}

/// A branch whose length is 254 or just over.
fn long_branch(random: &mut Random) -> Vec<u8> {
    let mut record = Record::branch(41);
    let size = random.between(4, 8);
    record.tail = random.bytes(size);
    let mut input = record.bytes();
    input.extend(random.bytes(30));
    input
}

/// Two to four bytes with a small length: the least the reader gets.
fn record_start(random: &mut Random) -> Vec<u8> {
    let mut input = vec![random.below(6) as u8, 0, random.below(4) as u8, 0];
    input.truncate(random.between(2, 4));
    if random.chance(50) {
        let size = random.below(12);
        input.extend(random.bytes(size));
    }
    input
}

const KINDS: u64 = 21;

/// Input `index` of the series of `seed`. The kinds take turns.
pub fn input(seed: u64, index: u64) -> Vec<u8> {
    let random = &mut Random::numbered(seed, index);
    let round = (index / KINDS) as usize;
    match index % KINDS {
        0 | 5 | 10 => whole(small_aim(random), random),
        1 | 6 | 11 => whole(wide_aim(random), random),
        2 => whole(full_aim(random), random),
        3 => whole(over_aim(random, round % 5), random),
        4 => truncated(random),
        7 => byte_changed(random),
        8 => damaged(random, &[wrong_kind]),
        9 => damaged(random, &[wrong_length]),
        12 => damaged(random, &[extra_bytes]),
        13 | 14 => damaged(random, &[wrong_body]),
        15 => {
            let two = [random.pick(&DAMAGES), random.pick(&DAMAGES)];
            damaged(random, &two)
        }
        16 => wrong_size(random, round % 8),
        17 => high_marks(random),
        18 => oddity(random, round),
        19 => oddity(random, round + 7),
        _ => {
            let two = [random.pick(&DAMAGES), wrong_body];
            damaged(random, &two)
        }
    }
}

#[cfg(test)]
mod tests {
    use super::*;
    use crate::code::Code;
    use crate::note::{read, Group};

    fn groups(group: &Group) -> usize {
        match group {
            Group::Leaf { .. } => 1,
            Group::Branch { members, .. } => 1 + members.iter().map(groups).sum::<usize>(),
        }
    }

    fn nesting(group: &Group) -> usize {
        match group {
            Group::Leaf { .. } => 1,
            Group::Branch { members, .. } => 1 + members.iter().map(nesting).max().unwrap(),
        }
    }

    #[test]
    fn aims_give_sound_notes_up_to_every_bound() {
        let mut most = [0; 5];
        for seed in 0..400 {
            let random = &mut Random::new(seed);
            for aim in [small_aim(random), wide_aim(random), full_aim(random)] {
                let top = tree(random, &aim);
                let layout = read(&top.bytes()).unwrap();
                let code = Code::of(&layout);
                assert_eq!(code.k, top.data());
                assert_eq!(code.n(), top.data() + top.redundant());
                let sizes = [
                    code.k,
                    code.n(),
                    groups(&layout),
                    nesting(&layout),
                    top.rows(),
                ];
                most = [0, 1, 2, 3, 4].map(|i| most[i].max(sizes[i]));
            }
        }
        assert_eq!(most, [32, 48, 16, 4, 16]);
    }

    #[test]
    fn each_bound_is_passed_by_one() {
        for which in 0..5 {
            let refused = (0..20).any(|seed| {
                let random = &mut Random::new(seed);
                let aim = over_aim(random, which);
                let fault = read(&tree(random, &aim).bytes());
                fault.is_err_and(|fault| fault.number == 5)
            });
            assert!(refused);
        }
    }

    #[test]
    fn a_series_repeats() {
        for index in 0..60 {
            assert_eq!(input(5, index), input(5, index));
        }
    }
}
