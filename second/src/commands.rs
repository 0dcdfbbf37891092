//! The commands of a script, and how they stand in its bytes: a letter, then
//! the fields, numbers little-endian, nothing between two commands.

pub const MOST_STRIPE: usize = 49_152;
pub const MOST_SPARE: usize = 2_048;

pub const LETTERS: &str = "NASBQJEOPRUDFVCT";

#[derive(Clone, Debug, PartialEq, Eq)]
pub enum Command {
    Note(Vec<u8>),
    Alter(u8),
    Standing {
        length: u64,
        lost: u64,
    },
    Stripe(Vec<u8>),
    Spare(Vec<u8>),
    Junk(u8),
    Encode,
    Lose(u64),
    Plan(u64),
    Repair(u64),
    Rebuild,
    Correct {
        block: u64,
        offset: u64,
        difference: Vec<u8>,
    },
    Fetch(u64),
    View(u64),
    /// The limits as the bits of two f64.
    Price {
        storage: u64,
        reads: u64,
    },
    State,
}

/// Why a script ends before its last byte.
#[derive(Clone, Copy, Debug, PartialEq, Eq)]
pub enum Damage {
    Letter,
    Cut,
    Long,
}

impl Command {
    pub fn letter(&self) -> char {
        match self {
            Command::Note(_) => 'N',
            Command::Alter(_) => 'A',
            Command::Standing { .. } => 'S',
            Command::Stripe(_) => 'B',
            Command::Spare(_) => 'Q',
            Command::Junk(_) => 'J',
            Command::Encode => 'E',
            Command::Lose(_) => 'O',
            Command::Plan(_) => 'P',
            Command::Repair(_) => 'R',
            Command::Rebuild => 'U',
            Command::Correct { .. } => 'D',
            Command::Fetch(_) => 'F',
            Command::View(_) => 'V',
            Command::Price { .. } => 'C',
            Command::State => 'T',
        }
    }

    pub fn bytes(&self) -> Vec<u8> {
        let mut bytes = vec![self.letter() as u8];
        match self {
            Command::Note(part) | Command::Spare(part) => put_short(&mut bytes, part),
            Command::Alter(x) | Command::Junk(x) => bytes.push(*x),
            Command::Standing { length: a, lost: b }
            | Command::Price {
                storage: a,
                reads: b,
            } => put_numbers(&mut bytes, &[*a, *b]),
            Command::Stripe(part) => {
                bytes.extend((part.len() as u32).to_le_bytes());
                bytes.extend(part);
            }
            Command::Encode | Command::Rebuild | Command::State => {}
            Command::Lose(b)
            | Command::Plan(b)
            | Command::Repair(b)
            | Command::Fetch(b)
            | Command::View(b) => put_numbers(&mut bytes, &[*b]),
            Command::Correct {
                block,
                offset,
                difference,
            } => {
                put_numbers(&mut bytes, &[*block, *offset]);
                put_short(&mut bytes, difference);
            }
        }
        bytes
    }
}

fn put_numbers(bytes: &mut Vec<u8>, numbers: &[u64]) {
    for number in numbers {
        bytes.extend(number.to_le_bytes());
    }
}

/// A count of two bytes, then the bytes.
fn put_short(bytes: &mut Vec<u8>, part: &[u8]) {
    bytes.extend((part.len() as u16).to_le_bytes());
    bytes.extend(part);
}

/// The bytes of a script that are still to be read.
struct Rest<'a>(&'a [u8]);

impl<'a> Rest<'a> {
    fn take(&mut self, count: usize) -> Result<&'a [u8], Damage> {
        if count > self.0.len() {
            return Err(Damage::Cut);
        }
        let (part, rest) = self.0.split_at(count);
        self.0 = rest;
        Ok(part)
    }

    /// A number of `size` bytes, the lowest byte first.
    fn number(&mut self, size: usize) -> Result<u64, Damage> {
        let bytes = self.take(size)?;
        Ok(bytes
            .iter()
            .rev()
            .fold(0, |sum, &b| sum << 8 | u64::from(b)))
    }

    fn byte(&mut self) -> Result<u8, Damage> {
        Ok(self.take(1)?[0])
    }

    fn long(&mut self) -> Result<u64, Damage> {
        self.number(8)
    }

    /// A count of `size` bytes, at most `most`, and as many bytes.
    fn part(&mut self, size: usize, most: usize) -> Result<Vec<u8>, Damage> {
        let count = self.number(size)? as usize;
        if count > most {
            return Err(Damage::Long);
        }
        Ok(self.take(count)?.to_vec())
    }
}

/// The command at the start of `script`, and how many bytes it takes.
pub fn read(script: &[u8]) -> Result<(Command, usize), Damage> {
    let mut rest = Rest(script);
    let command = match rest.byte()? {
        b'N' => Command::Note(rest.part(2, usize::MAX)?),
        b'A' => Command::Alter(rest.byte()?),
        b'S' => Command::Standing {
            length: rest.long()?,
            lost: rest.long()?,
        },
        b'B' => Command::Stripe(rest.part(4, MOST_STRIPE)?),
        b'Q' => Command::Spare(rest.part(2, MOST_SPARE)?),
        b'J' => Command::Junk(rest.byte()?),
        b'E' => Command::Encode,
        b'O' => Command::Lose(rest.long()?),
        b'P' => Command::Plan(rest.long()?),
        b'R' => Command::Repair(rest.long()?),
        b'U' => Command::Rebuild,
        b'D' => Command::Correct {
            block: rest.long()?,
            offset: rest.long()?,
            difference: rest.part(2, usize::MAX)?,
        },
        b'F' => Command::Fetch(rest.long()?),
        b'V' => Command::View(rest.long()?),
        b'C' => Command::Price {
            storage: rest.long()?,
            reads: rest.long()?,
        },
        b'T' => Command::State,
        _ => return Err(Damage::Letter),
    };
    Ok((command, script.len() - rest.0.len()))
}

#[cfg(test)]
mod tests {
    use super::*;

    #[test]
    fn fields_stand_lowest_byte_first() {
        assert_eq!(Command::Lose(0x0102).bytes(), b"O\x02\x01\0\0\0\0\0\0");
        let correct = Command::Correct {
            block: 1,
            offset: u64::MAX,
            difference: vec![7, 8, 9],
        };
        let bytes = b"D\x01\0\0\0\0\0\0\0\xFF\xFF\xFF\xFF\xFF\xFF\xFF\xFF\x03\0\x07\x08\x09";
        assert_eq!(correct.bytes(), bytes);
        assert_eq!(Command::Stripe(vec![5]).bytes(), b"B\x01\0\0\0\x05");
        assert_eq!(Command::Spare(vec![5]).bytes(), b"Q\x01\0\x05");
        assert_eq!(Command::Note(vec![]).bytes(), b"N\0\0");
        let standing = Command::Standing { length: 3, lost: 4 };
        assert_eq!(standing.bytes(), b"S\x03\0\0\0\0\0\0\0\x04\0\0\0\0\0\0\0");
    }

    #[test]
    fn damages() {
        assert_eq!(read(b"x"), Err(Damage::Letter));
        assert_eq!(read(b"e"), Err(Damage::Letter));
        assert_eq!(read(b"O\0\0\0\0\0\0\0"), Err(Damage::Cut));
        assert_eq!(read(b"N\x01\0"), Err(Damage::Cut));
        assert_eq!(read(b"Q\x01\x08"), Err(Damage::Long));
        assert_eq!(read(b"Q\0\x08"), Err(Damage::Cut));
        assert_eq!(read(b"B\x01\xC0\0\0"), Err(Damage::Long));
        assert_eq!(read(b"B\0\xC0\0\0"), Err(Damage::Cut));
        assert_eq!(read(b"B\0\0\0\xFF"), Err(Damage::Long));
        assert_eq!(read(b"B\0\0\0"), Err(Damage::Cut));
    }

    #[test]
    fn written_commands_are_read_again() {
        let commands = [
            Command::Note(vec![1, 2]),
            Command::Alter(130),
            Command::Standing {
                length: u64::MAX,
                lost: 1 << 63,
            },
            Command::Stripe(vec![3; 300]),
            Command::Spare(vec![4; 300]),
            Command::Junk(255),
            Command::Encode,
            Command::Lose(1),
            Command::Plan(2),
            Command::Repair(3),
            Command::Rebuild,
            Command::Correct {
                block: 4,
                offset: 5,
                difference: vec![],
            },
            Command::Fetch(6),
            Command::View(7),
            Command::Price {
                storage: 8,
                reads: 9,
            },
            Command::State,
        ];
        let letters: String = commands.iter().map(Command::letter).collect();
        assert_eq!(letters, LETTERS);
        for command in commands {
            let mut bytes = command.bytes();
            let size = bytes.len();
            assert!((1..size).all(|cut| read(&bytes[..cut]) == Err(Damage::Cut)));
            bytes.push(b'T');
            assert_eq!(read(&bytes), Ok((command, size)));
        }
    }
}
