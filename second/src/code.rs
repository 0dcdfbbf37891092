//! The code of a layout: each block's row of coefficients, its home, and the
//! order in which survivors are visited for a lost block.

use crate::field;
use crate::note::Group;

/// A group is named by its path: the member numbers from the top down to it.
/// So one group holds another exactly if its path begins the other's.
pub type Path = Vec<usize>;

pub struct Block {
    pub row: Vec<u8>,
    pub home: Path,
}

pub struct Code {
    pub k: usize,
    pub blocks: Vec<Block>,
}

/// A redundant block before k is known.
struct Redundant {
    home: Path,
    row_number: usize,
    first_data: usize,
    end_data: usize,
}

pub fn coefficient(row_number: usize, data_block: usize) -> u8 {
    assert!(row_number < 16 && data_block < 32);
    field::inverse((128 + (data_block ^ row_number)) as u8)
}

fn data_count(group: &Group) -> usize {
    match group {
        Group::Leaf { data, .. } => usize::from(*data),
        Group::Branch { members, .. } => members.iter().map(data_count).sum(),
    }
}

/// Lists the homes of the data blocks and the redundant blocks of a group,
/// in note order; `first_row` is the sum of the h of the groups round it.
fn gather(
    group: &Group,
    path: &Path,
    first_row: usize,
    data_homes: &mut Vec<Path>,
    redundant: &mut Vec<Redundant>,
) {
    let (Group::Leaf { own, .. } | Group::Branch { own, .. }) = group;
    let own = usize::from(*own);
    let first_data = data_homes.len();
    for row_number in first_row..first_row + own {
        redundant.push(Redundant {
            home: path.clone(),
            row_number,
            first_data,
            end_data: first_data + data_count(group),
        });
    }
    match group {
        Group::Leaf { data, .. } => {
            data_homes.extend((0..*data).map(|_| path.clone()));
        }
        Group::Branch { members, .. } => {
            for (number, member) in members.iter().enumerate() {
                let mut inner = path.clone();
                inner.push(number);
                gather(member, &inner, first_row + own, data_homes, redundant);
            }
        }
    }
}

impl Code {
    /// The code of a sound layout.
    pub fn of(layout: &Group) -> Code {
        let mut data_homes = Vec::new();
        let mut redundant = Vec::new();
        gather(layout, &Path::new(), 0, &mut data_homes, &mut redundant);
        let k = data_homes.len();
        let mut blocks = Vec::new();
        for (number, home) in data_homes.into_iter().enumerate() {
            let row = (0..k).map(|i| u8::from(i == number)).collect();
            blocks.push(Block { row, home });
        }
        for block in redundant {
            let covered = block.first_data..block.end_data;
            let at = |i| match covered.contains(&i) {
                true => coefficient(block.row_number, i),
                false => 0,
            };
            let row = (0..k).map(at).collect();
            let home = block.home;
            blocks.push(Block { row, home });
        }
        Code { k, blocks }
    }

    pub fn n(&self) -> usize {
        self.blocks.len()
    }

    /// The block numbers not marked lost, in rising order.
    pub fn survivors(&self, lost: u64) -> Vec<usize> {
        (0..self.n()).filter(|&b| !is_lost(lost, b)).collect()
    }

    /// How many steps outward from the lost block's home the walk must take
    /// until it stands at a group that holds the survivor's home.
    fn steps_out(&self, lost_block: usize, survivor: usize) -> usize {
        let from = &self.blocks[lost_block].home;
        let to = &self.blocks[survivor].home;
        let shared = from.iter().zip(to).take_while(|(a, b)| a == b).count();
        from.len() - shared
    }

    pub fn visiting_order(&self, lost: u64, lost_block: usize) -> Vec<usize> {
        let mut order = self.survivors(lost);
        order.sort_by_key(|&b| (self.steps_out(lost_block, b), b));
        order
    }

    pub fn rows(&self, blocks: &[usize]) -> Vec<Vec<u8>> {
        blocks.iter().map(|&b| self.blocks[b].row.clone()).collect()
    }
}

pub fn is_lost(lost: u64, block: usize) -> bool {
    lost >> block & 1 == 1
}

#[cfg(test)]
mod tests {
    use super::*;
    use crate::note::{read, SAMPLE};

    #[test]
    fn worked_rows() {
        let code = Code::of(&read(&SAMPLE).unwrap());
        assert_eq!((code.k, code.n()), (4, 7));
        assert_eq!(code.blocks[0].row, [1, 0, 0, 0]);
        assert_eq!(code.blocks[3].row, [0, 0, 0, 1]);
        assert_eq!(code.blocks[4].row, [27, 84, 161, 29]);
        assert_eq!(code.blocks[5].row, [84, 27, 0, 0]);
        assert_eq!(code.blocks[6].row, [0, 0, 29, 161]);
    }

    #[test]
    fn homes_and_order_of_the_sample() {
        let code = Code::of(&read(&SAMPLE).unwrap());
        assert_eq!(code.blocks[4].home, Path::new());
        assert_eq!(code.blocks[5].home, [0]);
        assert_eq!(code.blocks[6].home, [1]);
        let order = |block: usize| code.visiting_order(1u64 << block, block);
        assert_eq!(order(0), [1, 5, 2, 3, 4, 6]);
        assert_eq!(order(2), [3, 6, 0, 1, 4, 5]);
        assert_eq!(order(4), [0, 1, 2, 3, 5, 6]);
        assert_eq!(order(6), [2, 3, 0, 1, 4, 5]);
    }

    #[test]
    fn nested_rows_go_on_from_the_groups_round() {
        // Top 1, inner branch 2, its leaves 1 each, and a leaf of its own.
        let leaf = |own, data| Group::Leaf { own, data };
        let members = vec![leaf(1, 2), leaf(1, 1)];
        let inner = Group::Branch { own: 2, members };
        let members = vec![leaf(2, 1), inner];
        let code = Code::of(&Group::Branch { own: 1, members });
        // Data: 0 | 1 2 | 3. Redundant: 4 top, 5 6 leaf, 7 8 inner, 9, 10.
        let redundant_rows: [(usize, usize, usize, usize); 7] = [
            (4, 0, 0, 4),
            (5, 1, 0, 1),
            (6, 2, 0, 1),
            (7, 1, 1, 4),
            (8, 2, 1, 4),
            (9, 3, 1, 3),
            (10, 3, 3, 4),
        ];
        assert_eq!((code.k, code.n()), (4, 11));
        for (block, row, from, to) in redundant_rows {
            for i in 0..4 {
                let inside = from <= i && i < to;
                let expected = if inside { coefficient(row, i) } else { 0 };
                assert_eq!(code.blocks[block].row[i], expected);
            }
        }
        let order = code.visiting_order(1 << 3, 3);
        assert_eq!(order, [10, 1, 2, 7, 8, 9, 0, 4, 5, 6]);
    }
}
