//! The text of the program: from the bytes of its input to what it writes.

use crate::code::is_lost;
use crate::note::{self, Group};
use crate::store::{Refusal, Standing, Store};

const LONGEST_RECORD: usize = 254;

/// The whole answer to an input.
pub fn text(input: &[u8]) -> String {
    match layout_text(input) {
        Ok(text) => text,
        Err(number) => format!("refused {number}\n"),
    }
}

fn layout_text(input: &[u8]) -> Result<String, u8> {
    let note = note_part(input)?;
    let layout = note::read(note).map_err(|fault| fault.number)?;
    let store = store_of(layout, &input[note.len()..])?;
    let code = store.sound().map_err(|refusal| refusal.number)?;
    let mut text = format!("layout {} {}\n", code.k, code.n());
    for block in (0..code.n()).filter(|&b| is_lost(store.standing.lost, b)) {
        text += &format!("lost {block}{}\n", plan_text(&store, block));
    }
    Ok(text)
}

/// The bytes the reader gets: the record its first two bytes speak of, never
/// less than four, as far as they are there.
fn note_part(input: &[u8]) -> Result<&[u8], u8> {
    let &[low, high, ..] = input else {
        return Ok(input);
    };
    let length = usize::from(u16::from_le_bytes([low, high]));
    if length > LONGEST_RECORD {
        return Err(5);
    }
    let size = 4.max(2 + length).min(input.len());
    Ok(&input[..size])
}

/// L, eight bytes of marks, and the stripe. Too few bytes for the first two
/// are 7; the count of the stripe's is asked by the store.
fn store_of(layout: Group, rest: &[u8]) -> Result<Store, u8> {
    if rest.len() < 10 {
        return Err(7);
    }
    let (head, stripe) = rest.split_at(10);
    let mut marks = [0; 8];
    marks.copy_from_slice(&head[2..]);
    let standing = Standing {
        length: usize::from(u16::from_le_bytes([head[0], head[1]])),
        lost: u64::from_le_bytes(marks),
    };
    Ok(Store {
        layout,
        altered: false,
        standing,
        stripe: stripe.to_vec(),
        spare: Vec::new(),
    })
}

fn plan_text(store: &Store, block: usize) -> String {
    match store.plan(block) {
        Ok(plan) => plan
            .iter()
            .map(|(from, factor)| format!(" {from}*{factor}"))
            .collect(),
        Err(Refusal { number, .. }) => format!(" {number}"),
    }
}

#[cfg(test)]
mod tests {
    use super::*;
    use crate::note::SAMPLE;
    use crate::plan::tests::marks;

    fn input(note: &[u8], length: u16, lost: u64, stripe: usize) -> Vec<u8> {
        let mut input = note.to_vec();
        input.extend(length.to_le_bytes());
        input.extend(lost.to_le_bytes());
        input.extend(vec![0xA5; stripe]);
        input
    }

    #[test]
    fn worked_text() {
        let lost = marks(&[0, 1, 5, 6]);
        let expected = "layout 4 7\nlost 0 14\nlost 1 14\nlost 5 14\n\
                        lost 6 2*29 3*161\n";
        assert_eq!(text(&input(&SAMPLE, 1, lost, 7)), expected);
        assert_eq!(text(&input(&SAMPLE, 1024, lost, 7168)), expected);
        let one = "layout 4 7\nlost 0 1*26 5*129\n";
        assert_eq!(text(&input(&SAMPLE, 3, 1, 21)), one);
        assert_eq!(text(&input(&SAMPLE, 3, 0, 21)), "layout 4 7\n");
    }

    #[test]
    fn sizes_and_marks() {
        let refused = |number: u8| format!("refused {number}\n");
        assert_eq!(text(&input(&SAMPLE, 1, 0, 6)), refused(7));
        assert_eq!(text(&input(&SAMPLE, 1, 0, 8)), refused(7));
        assert_eq!(text(&input(&SAMPLE, 0, 0, 0)), refused(7));
        assert_eq!(text(&input(&SAMPLE, 1025, 0, 7175)), refused(7));
        assert_eq!(text(&SAMPLE), refused(7));
        let whole = input(&SAMPLE, 1, 0, 7);
        for size in SAMPLE.len()..whole.len() {
            assert_eq!(text(&whole[..size]), refused(7));
        }
        assert_eq!(text(&input(&SAMPLE, 1, 1 << 7, 7)), refused(8));
        assert_eq!(text(&input(&SAMPLE, 1, 1 << 63, 7)), refused(8));
        assert_eq!(text(&input(&SAMPLE, 1, 1 << 63, 8)), refused(7));
    }

    #[test]
    fn faults_of_the_record() {
        let refused = |number: u8| format!("refused {number}\n");
        assert_eq!(text(&[]), refused(1));
        assert_eq!(text(&[255]), refused(1));
        assert_eq!(text(&[255, 0]), refused(5));
        assert_eq!(text(&[254, 0]), refused(1));
        assert_eq!(text(&[0, 0, 1]), refused(1));
        assert_eq!(text(&[0, 0, 1, 0, 9, 9]), refused(3));
        assert_eq!(text(&[2, 0, 3, 0, 9, 9]), refused(2));
        assert_eq!(text(&[4, 0, 1, 0, 1, 0]), refused(3));
        assert_eq!(text(&[4, 0, 1, 0, 0x11, 0x20]), refused(5));
        for size in 0..SAMPLE.len() {
            assert_eq!(text(&SAMPLE[..size]), refused(1));
        }
    }
}
