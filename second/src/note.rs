//! The layout note: records of a two-byte length, a two-byte kind and a body,
//! read by recursive descent. Each record is given the bytes up to the end of
//! the branch it stands in, or of the note.

pub const MOST_DATA: usize = 32;
pub const MOST_BLOCKS: usize = 48;
pub const MOST_GROUPS: usize = 16;
pub const MOST_NESTING: usize = 4;
pub const MOST_ROWS: usize = 16;

/// The note of the depot pair.
pub const SAMPLE: [u8; 17] = [0x0F, 0, 2, 0, 1, 4, 0, 1, 0, 1, 2, 4, 0, 1, 0, 1, 2];

/// The tree of groups as a note gives it; `own` is h, `data` is d.
#[derive(Clone, Debug, PartialEq, Eq)]
pub enum Group {
    Leaf { own: u8, data: u8 },
    Branch { own: u8, members: Vec<Group> },
}

/// A refused note: the number, and the offset of the record at fault.
#[derive(Clone, Copy, Debug, PartialEq, Eq)]
pub struct Fault {
    pub number: u8,
    pub offset: usize,
}

/// What has been counted so far, in reading order.
#[derive(Default)]
struct Totals {
    groups: usize,
    data: usize,
    blocks: usize,
}

/// Where a record stands: its offset in the note, its nesting (the top is 1)
/// and the sum of the h of the groups round it.
#[derive(Clone, Copy)]
struct Place {
    offset: usize,
    nesting: usize,
    rows_round: usize,
}

pub fn read(note: &[u8]) -> Result<Group, Fault> {
    let top = Place {
        offset: 0,
        nesting: 1,
        rows_round: 0,
    };
    let (group, size) = read_record(note, top, &mut Totals::default())?;
    if size < note.len() {
        return Err(Fault {
            number: 4,
            offset: size,
        });
    }
    Ok(group)
}

/// Reads the record at the start of `bytes`; gives the group and its size.
fn read_record(bytes: &[u8], place: Place, totals: &mut Totals) -> Result<(Group, usize), Fault> {
    let refuse = |number| Fault {
        number,
        offset: place.offset,
    };
    let &[length_low, length_high, kind_low, kind_high, ..] = bytes else {
        return Err(refuse(1));
    };
    let length = usize::from(u16::from_le_bytes([length_low, length_high]));
    if length < 2 {
        return Err(refuse(3));
    }
    let Some(body) = bytes.get(4..2 + length) else {
        return Err(refuse(1));
    };
    let group = match u16::from_le_bytes([kind_low, kind_high]) {
        1 => read_leaf(body, place, totals)?,
        2 => read_branch(body, place, totals)?,
        _ => return Err(refuse(2)),
    };
    Ok((group, 2 + length))
}

fn read_leaf(body: &[u8], place: Place, totals: &mut Totals) -> Result<Group, Fault> {
    match *body {
        [own, data] if data > 0 => {
            count(own, data, place, totals)?;
            Ok(Group::Leaf { own, data })
        }
        _ => Err(Fault {
            number: 3,
            offset: place.offset,
        }),
    }
}

fn read_branch(body: &[u8], place: Place, totals: &mut Totals) -> Result<Group, Fault> {
    let too_short = Fault {
        number: 3,
        offset: place.offset,
    };
    let Some((&own, mut rest)) = body.split_first() else {
        return Err(too_short);
    };
    count(own, 0, place, totals)?;
    let mut member = Place {
        offset: place.offset + 5,
        nesting: place.nesting + 1,
        rows_round: place.rows_round + usize::from(own),
    };
    let mut members = Vec::new();
    while !rest.is_empty() {
        let (group, size) = read_record(rest, member, totals)?;
        members.push(group);
        rest = &rest[size..];
        member.offset += size;
    }
    if members.len() < 2 {
        return Err(too_short);
    }
    Ok(Group::Branch { own, members })
}

/// Adds one group to the totals, or refuses it with 5.
fn count(own: u8, data: u8, place: Place, totals: &mut Totals) -> Result<(), Fault> {
    let (own, data) = (usize::from(own), usize::from(data));
    totals.groups += 1;
    totals.data += data;
    totals.blocks += own + data;
    let within = totals.groups <= MOST_GROUPS
        && totals.data <= MOST_DATA
        && totals.blocks <= MOST_BLOCKS
        && place.nesting <= MOST_NESTING
        && place.rows_round + own <= MOST_ROWS;
    if within {
        Ok(())
    } else {
        Err(Fault {
            number: 5,
            offset: place.offset,
        })
    }
}

/// The note of a tree; none if a length does not fit two bytes.
pub fn write(group: &Group) -> Option<Vec<u8>> {
    let (kind, body) = match group {
        Group::Leaf { own, data } => (1u16, vec![*own, *data]),
        Group::Branch { own, members } => {
            let mut body = vec![*own];
            for member in members {
                body.extend(write(member)?);
            }
            (2, body)
        }
    };
    let length = u16::try_from(2 + body.len()).ok()?;
    let mut note = Vec::new();
    note.extend(length.to_le_bytes());
    note.extend(kind.to_le_bytes());
    note.extend(body);
    Some(note)
}

/// Whether some accepted note gives this tree. A tree has one note at most.
pub fn gives(group: &Group) -> bool {
    write(group).is_some_and(|note| read(&note).as_ref() == Ok(group))
}

#[cfg(test)]
mod tests {
    use super::*;

    fn leaf(own: u8, data: u8) -> Group {
        Group::Leaf { own, data }
    }

    fn branch(own: u8, members: Vec<Group>) -> Group {
        Group::Branch { own, members }
    }

    fn fault(number: u8, offset: usize) -> Result<Group, Fault> {
        Err(Fault { number, offset })
    }

    fn read_written(group: &Group) -> Result<Group, Fault> {
        read(&write(group).unwrap())
    }

    #[test]
    fn sample_note() {
        let tree = branch(1, vec![leaf(1, 2), leaf(1, 2)]);
        assert_eq!(read(&SAMPLE), Ok(tree.clone()));
        assert_eq!(write(&tree).unwrap(), SAMPLE);
        assert!(gives(&tree));
    }

    #[test]
    fn worked_notes() {
        assert_eq!(read(&[4, 0, 1, 0, 0x10, 0x20]), Ok(leaf(16, 32)));
        assert_eq!(read(&[4, 0, 1, 0, 0x11, 0x20]), fault(5, 0));
        assert_eq!(read(&[4, 0, 1, 0, 0x10, 0x21]), fault(5, 0));
        assert_eq!(read(&[4, 0, 1, 0, 1, 0]), fault(3, 0));
        assert_eq!(read(&[]), fault(1, 0));
        let mut longer = SAMPLE.to_vec();
        longer.push(0);
        assert_eq!(read(&longer), fault(4, 17));
        assert_eq!(read(&[4, 0, 1, 0, 0, 1]), Ok(leaf(0, 1)));
    }

    #[test]
    fn order_at_one_record() {
        assert_eq!(read(&[1, 0, 9]), fault(1, 0));
        assert_eq!(read(&[1, 0, 9, 9]), fault(3, 0));
        assert_eq!(read(&[5, 0, 9, 9]), fault(1, 0));
        assert_eq!(read(&[2, 0, 9, 9]), fault(2, 0));
        assert_eq!(read(&[2, 0, 1, 0]), fault(3, 0));
        assert_eq!(read(&[3, 0, 1, 0, 1]), fault(3, 0));
        assert_eq!(read(&[5, 0, 1, 0, 1, 1, 1]), fault(3, 0));
        assert_eq!(read(&[2, 0, 2, 0]), fault(3, 0));
        assert_eq!(read(&[4, 0, 1, 0, 99, 0]), fault(3, 0));
        assert_eq!(read(&[3, 0, 2, 0, 1]), fault(3, 0));
        assert_eq!(read(&[3, 0, 2, 0, 17]), fault(5, 0));
        assert_eq!(read(&[4, 0, 1, 1, 1, 1]), fault(2, 0));
    }

    #[test]
    fn ends_of_branches() {
        // Three bytes left in the branch, no member yet: 1 comes first.
        assert_eq!(read(&[6, 0, 2, 0, 0, 4, 0, 1]), fault(1, 5));
        // One member, then the end.
        let one = [9, 0, 2, 0, 0, 4, 0, 1, 0, 1, 2];
        assert_eq!(read(&one), fault(3, 0));
        // A member that passes its branch, though the note goes on.
        let mut short = SAMPLE.to_vec();
        short[0] = 0x0E;
        assert_eq!(read(&short), fault(1, 11));
        let mut cut = SAMPLE.to_vec();
        cut.pop();
        assert_eq!(read(&cut), fault(1, 0));
    }

    #[test]
    fn bounds_are_reached_and_not_passed() {
        let sixteen = branch(0, vec![leaf(0, 1); 15]);
        assert!(gives(&sixteen));
        let seventeen = branch(0, vec![leaf(0, 1); 16]);
        assert_eq!(read_written(&seventeen), fault(5, 5 + 15 * 6));

        let two = branch(1, vec![leaf(1, 1), leaf(1, 1)]);
        let three = branch(1, vec![leaf(1, 1), two]);
        let four = branch(1, vec![leaf(1, 1), three.clone()]);
        assert!(gives(&four));
        let five = branch(1, vec![leaf(1, 1), four]);
        assert_eq!(read_written(&five).unwrap_err().number, 5);

        assert!(gives(&branch(15, vec![leaf(1, 1), leaf(1, 1)])));
        let rows = branch(15, vec![leaf(1, 1), leaf(2, 1)]);
        assert_eq!(read_written(&rows), fault(5, 11));

        let blocks = branch(0, vec![leaf(8, 16), leaf(9, 16)]);
        assert_eq!(read_written(&blocks), fault(5, 11));
        assert!(gives(&branch(0, vec![leaf(8, 16), leaf(8, 16)])));
    }

    #[test]
    fn trees_that_no_note_gives() {
        assert!(!gives(&leaf(1, 0)));
        assert!(!gives(&leaf(17, 1)));
        assert!(!gives(&branch(1, vec![])));
        assert!(!gives(&branch(1, vec![leaf(1, 1)])));
        assert!(!gives(&branch(1, vec![leaf(1, 1); 20_000])));
    }
}
