//! Whether a lost block can be had back, and its plan, by one reduction: the
//! survivors' rows stand as columns in visiting order, the lost block's row
//! behind them. A column is no combination of those before it exactly if it
//! gets a pivot. Every plan is checked; the tests decide it by ranks too.

use crate::code::Code;
use crate::field::{add, dot, inverse, multiply};
use crate::random::Random;

/// Block numbers with their coefficients, by rising block number.
pub type Plan = Vec<(usize, u8)>;

type Matrix = Vec<Vec<u8>>;

/// Brings a matrix into reduced row form; gives the columns with a pivot,
/// the first of them in row 0, and so on.
fn reduce(matrix: &mut Matrix) -> Vec<usize> {
    let columns = matrix.first().map_or(0, Vec::len);
    let mut pivots = Vec::new();
    for column in 0..columns {
        let rank = pivots.len();
        let Some(found) = (rank..matrix.len()).find(|&r| matrix[r][column] != 0) else {
            continue;
        };
        matrix.swap(rank, found);
        let scale = inverse(matrix[rank][column]);
        matrix[rank]
            .iter_mut()
            .for_each(|x| *x = multiply(*x, scale));
        clear_column(matrix, rank, column);
        pivots.push(column);
    }
    pivots
}

/// Makes every row but `keep` zero in the column where `keep` has a one.
fn clear_column(matrix: &mut Matrix, keep: usize, column: usize) {
    let kept = matrix[keep].clone();
    for (number, row) in matrix.iter_mut().enumerate() {
        let factor = row[column];
        if number == keep || factor == 0 {
            continue;
        }
        for (x, &y) in row.iter_mut().zip(&kept) {
            *x = add(*x, multiply(factor, y));
        }
    }
}

/// The plan of a lost block, or none if it is no combination of survivors.
pub fn plan(code: &Code, lost: u64, block: usize) -> Option<Plan> {
    let order = code.visiting_order(lost, block);
    let target = &code.blocks[block].row;
    let equation = |i: usize| {
        let mut sides: Vec<u8> = order.iter().map(|&b| code.blocks[b].row[i]).collect();
        sides.push(target[i]);
        sides
    };
    let mut equations: Matrix = (0..code.k).map(equation).collect();
    let kept = reduce(&mut equations);
    let last = order.len();
    if kept.contains(&last) {
        return None;
    }
    let factors = equations.iter().map(|sides| sides[last]);
    let items = kept.iter().map(|&column| order[column]).zip(factors);
    let mut plan: Plan = items.filter(|&(_, factor)| factor != 0).collect();
    plan.sort();
    check(code, lost, block, &plan);
    Some(plan)
}

/// A plan must name survivors alone and give the block for random data.
fn check(code: &Code, lost: u64, block: usize, plan: &Plan) {
    let mut random = Random::numbered(lost, block as u64);
    for _ in 0..4 {
        let data = random.bytes(code.k);
        let value = |b: usize| dot(&code.blocks[b].row, &data);
        let mut sum = 0;
        for &(from, factor) in plan {
            assert_eq!(lost >> from & 1, 0, "plan reads a lost block");
            sum = add(sum, multiply(factor, value(from)));
        }
        assert_eq!(sum, value(block), "plan gives other bytes");
    }
}

#[cfg(test)]
pub mod tests {
    use super::*;
    use crate::inputs::{some_marks, sound_note};
    use crate::note::{read, SAMPLE};
    use crate::worked::two_groups_of_four;

    fn rank(mut rows: Matrix) -> usize {
        reduce(&mut rows).len()
    }

    /// Whether the row is a combination of the rows: it adds no rank to them.
    fn is_combination(rows: &Matrix, row: &[u8]) -> bool {
        let mut with_row = rows.clone();
        with_row.push(row.to_vec());
        rank(with_row) == rank(rows.clone())
    }

    /// The blocks a plan keeps, each judged by ranks of its own; none if the
    /// lost block's row is no combination of the survivors'.
    fn kept_by_ranks(code: &Code, lost: u64, block: usize) -> Option<Vec<usize>> {
        let target = &code.blocks[block].row;
        if !is_combination(&code.rows(&code.survivors(lost)), target) {
            return None;
        }
        let mut kept = Vec::new();
        for survivor in code.visiting_order(lost, block) {
            if !is_combination(&code.rows(&kept), &code.blocks[survivor].row) {
                kept.push(survivor);
            }
        }
        Some(kept)
    }

    /// Checked plans over the kept rows are right, as these are independent.
    #[test]
    fn plans_agree_with_ranks() {
        let mut found = [0; 2];
        for index in 0..300 {
            let random = &mut Random::numbered(77, index);
            let code = Code::of(&read(&sound_note(random)).unwrap());
            let lost = some_marks(random, code.k, code.n());
            let lost_blocks = (0..code.n()).filter(|b| lost >> b & 1 == 1);
            for block in lost_blocks.take(6) {
                let plan = plan(&code, lost, block);
                let kept = kept_by_ranks(&code, lost, block);
                assert_eq!(plan.is_some(), kept.is_some());
                let kept = kept.unwrap_or_default();
                assert!(plan.iter().flatten().all(|item| kept.contains(&item.0)));
                assert_eq!(rank(code.rows(&kept)), kept.len());
                found[usize::from(plan.is_some())] += 1;
            }
        }
        assert!(found.iter().all(|&count| count > 100));
    }

    pub fn marks(blocks: &[usize]) -> u64 {
        blocks.iter().fold(0, |set, b| set | 1 << b)
    }

    fn with_plans(code: &Code, lost: &[usize]) -> Vec<usize> {
        let set = marks(lost);
        let has_plan = |&b: &usize| plan(code, set, b).is_some();
        lost.iter().copied().filter(has_plan).collect()
    }

    fn reads(code: &Code, lost: &[usize], block: usize) -> Vec<usize> {
        let plan = plan(code, marks(lost), block).unwrap();
        plan.into_iter().map(|(from, _)| from).collect()
    }

    #[test]
    fn worked_plans() {
        let code = Code::of(&read(&SAMPLE).unwrap());
        assert_eq!(plan(&code, 1, 0), Some(vec![(1, 26), (5, 129)]));
        for lost in [&[0, 1][..], &[0, 1, 2], &[0, 2, 4]] {
            assert_eq!(with_plans(&code, lost), lost);
        }
        assert_eq!(with_plans(&code, &[0, 1, 5]), []);
        assert_eq!(with_plans(&code, &[0, 1, 5, 6]), [6]);
        let six = plan(&code, marks(&[0, 1, 5, 6]), 6);
        assert_eq!(six, Some(vec![(2, 29), (3, 161)]));
    }

    #[test]
    fn worked_reads_of_two_groups_of_four() {
        let code = Code::of(&two_groups_of_four());
        assert_eq!(reads(&code, &[0, 8], 8), [1, 2, 3, 4, 5, 6, 7, 9]);
        assert_eq!(reads(&code, &[8], 8), [0, 1, 2, 3, 4, 5, 6, 7]);
        assert_eq!(reads(&code, &[0, 4, 5], 0), [1, 2, 3, 10]);
    }

    #[test]
    fn patterns_without_plans() {
        let code = Code::of(&two_groups_of_four());
        let patterns = [[0, 1, 4, 5], [0, 1, 6, 7], [2, 3, 4, 5], [2, 3, 6, 7]];
        for lost in patterns {
            assert_eq!(with_plans(&code, &lost), []);
        }
    }

    #[test]
    fn ranks() {
        assert_eq!(rank(vec![]), 0);
        assert_eq!(rank(vec![vec![0, 0], vec![0, 0]]), 0);
        assert_eq!(rank(vec![vec![0, 3], vec![0, 7]]), 1);
        assert_eq!(rank(vec![vec![0, 3], vec![5, 7], vec![1, 1]]), 2);
    }
}
