//! Runs a script over one store and gives a line for each command.

use crate::code::{is_lost, Code};
use crate::commands::{self, Command, Damage};
use crate::note::{self, Group};
use crate::store::{Limits, Price, Refusal, Standing, Store};

pub const MOST_SCRIPT: usize = 65_536;

/// The last field that an alteration can name: the last of group 15.
const LAST_FIELD: u8 = 130;

const SHOWN_WHOLE: usize = 64;

/// One command of a script and what came of it.
pub struct Step {
    /// Where it stands in the script.
    pub place: std::ops::Range<usize>,
    pub line: String,
    /// Its letter and the kind of its answer, for a tally.
    pub kind: (String, String),
}

pub struct Drill {
    pub store: Store,
}

/// The line for a command, and the kind of answer it is.
type Told = (String, String);

pub fn text(script: &[u8]) -> String {
    let lines = steps(script).into_iter();
    lines.map(|step| step.line + "\n").collect()
}

pub fn steps(script: &[u8]) -> Vec<Step> {
    let mut drill = Drill::new();
    let mut steps = Vec::new();
    let mut at = 0;
    while at < script.len() {
        let (end, line, kind) = match commands::read(&script[at..]) {
            Ok((command, size)) => {
                let (line, kind) = drill.run(&command);
                (at + size, line, (command.letter().to_string(), kind))
            }
            Err(damage) => {
                let kind = damage_name(damage).to_string();
                let line = format!("damaged at {at}");
                (script.len(), line, ("damaged".to_string(), kind))
            }
        };
        let place = at..end;
        steps.push(Step { place, line, kind });
        at = end;
    }
    steps
}

fn damage_name(damage: Damage) -> &'static str {
    match damage {
        Damage::Letter => "letter",
        Damage::Cut => "cut",
        Damage::Long => "long",
    }
}

/// `-`, or all bytes in hexadecimal, or a checksum of many.
fn shown(bytes: &[u8]) -> String {
    if bytes.is_empty() {
        return "-".to_string();
    }
    if bytes.len() <= SHOWN_WHOLE {
        return bytes.iter().map(|byte| format!("{byte:02x}")).collect();
    }
    let next = |sum: u64, &byte: &u8| (sum * 257 + u64::from(byte)) % 4_294_967_291;
    format!("#{}", bytes.iter().fold(1, next))
}

fn number<T>(answer: &Result<T, Refusal>) -> u8 {
    answer.as_ref().err().map_or(0, |refusal| refusal.number)
}

/// The figure as a fraction over k, with the smallest whole numerator.
fn fraction(figure: f64, k: usize) -> String {
    let numerator = (0..2048).find(|&s| f64::from(s) / k as f64 == figure);
    format!("{}/{k}", numerator.expect("a fraction over k"))
}

impl Drill {
    /// The blank layout, which no note gives, L = 1, and nothing else.
    pub fn new() -> Drill {
        let layout = Group::Branch {
            own: 0,
            members: Vec::new(),
        };
        Drill {
            store: Store {
                layout,
                altered: false,
                standing: Standing { length: 1, lost: 0 },
                stripe: Vec::new(),
                spare: Vec::new(),
            },
        }
    }

    pub fn run(&mut self, command: &Command) -> Told {
        let store = &mut self.store;
        match command {
            Command::Note(note) => self.note(note),
            Command::Alter(field) => {
                store.altered |= *field <= LAST_FIELD;
                accepted(format!("alter {field}"))
            }
            Command::Standing { length, lost } => {
                store.standing.length = *length as usize;
                store.standing.lost = *lost;
                accepted(format!("standing {}", self.standing()))
            }
            Command::Stripe(bytes) => {
                store.stripe = bytes.clone();
                accepted(format!("stripe {}", shown(bytes)))
            }
            Command::Spare(bytes) => {
                store.spare = bytes.clone();
                accepted(format!("spare {}", shown(bytes)))
            }
            Command::Junk(x) => {
                self.junk(*x);
                accepted(format!("junk {}", shown(&self.store.stripe)))
            }
            Command::Price { storage, reads } => self.price(*storage, *reads),
            Command::State => accepted(format!("state {}", self.all())),
            call => self.call(call),
        }
    }

    /// The calls on standing, stripe and spare.
    fn call(&mut self, call: &Command) -> Told {
        let store = &mut self.store;
        match call {
            Command::Encode => {
                let answer = number(&store.encode());
                let line = format!("encode {answer} {}", self.held());
                (line, answer.to_string())
            }
            Command::Lose(block) => {
                let answer = number(&store.lose(*block as usize));
                let line = format!("lose {block} {answer} {}", self.standing());
                (line, answer.to_string())
            }
            Command::Plan(block) => self.plan(*block),
            Command::Repair(block) => {
                let answer = number(&store.repair(*block as usize));
                let line = format!("repair {block} {answer} {}", self.held());
                (line, answer.to_string())
            }
            Command::Rebuild => self.rebuild(),
            Command::Correct {
                block,
                offset,
                difference,
            } => {
                let done = store.correct(*block as usize, *offset as usize, difference);
                let answer = number(&done);
                let line = format!("correct {block} {answer} {}", self.held());
                (line, answer.to_string())
            }
            Command::Fetch(block) => {
                let answer = number(&store.fetch(*block as usize));
                let line = format!("fetch {block} {answer} {}", self.all());
                (line, answer.to_string())
            }
            Command::View(block) => self.view(*block),
            _ => unreachable!("no call"),
        }
    }

    fn note(&mut self, note: &[u8]) -> Told {
        match note::read(note) {
            Ok(layout) => {
                let code = Code::of(&layout);
                self.store.layout = layout;
                self.store.altered = false;
                accepted(format!("note k {} n {}", code.k, code.n()))
            }
            Err(fault) => {
                let line = format!("note refused {} at {}", fault.number, fault.offset);
                (line, fault.number.to_string())
            }
        }
    }

    /// Adds `x` to each byte of the stripe that stands in a lost block.
    fn junk(&mut self, x: u8) {
        let Standing { length, lost } = self.store.standing;
        if length == 0 {
            return;
        }
        for (place, byte) in self.store.stripe.iter_mut().enumerate() {
            let block = place / length;
            if block < 64 && is_lost(lost, block) {
                *byte = byte.wrapping_add(x);
            }
        }
    }

    fn plan(&self, block: u64) -> Told {
        let answer = self.store.plan(block as usize);
        let mut line = format!("plan {block} {}", number(&answer));
        for (from, factor) in answer.iter().flatten() {
            line += &format!(" {from}*{factor}");
        }
        (line, number(&answer).to_string())
    }

    fn rebuild(&mut self) -> Told {
        let answer = self.store.rebuild();
        let kind = number(&answer).to_string();
        let named = match answer {
            Err(Refusal { block: Some(b), .. }) => format!("@{b}"),
            _ => String::new(),
        };
        (format!("rebuild {kind}{named} {}", self.held()), kind)
    }

    /// The kind is the number that the first reading call would give.
    fn view(&self, block: u64) -> Told {
        let part = shown(self.store.view(block as usize));
        let kind = number(&self.store.clone().fetch(block as usize));
        let line = format!("view {block} {part} {}", self.all());
        (line, kind.to_string())
    }

    fn price(&self, storage: u64, reads: u64) -> Told {
        let limits = Limits {
            storage: f64::from_bits(storage),
            reads: f64::from_bits(reads),
        };
        let over_k = |figure| fraction(figure, Code::of(&self.store.layout).k);
        let (kind, figures) = match self.store.price(limits) {
            Price::Refused { number } => (number.to_string(), String::new()),
            Price::TooLarge { storage } => ("large".into(), format!(" {}", over_k(storage))),
            Price::TooManyReads { reads } => ("reads".into(), format!(" {}", over_k(reads))),
            Price::Fits { storage, reads } => {
                let both = format!(" {} {}", over_k(storage), over_k(reads));
                ("fits".into(), both)
            }
        };
        (format!("price {kind}{figures}"), kind)
    }

    /// L and the marks.
    fn standing(&self) -> String {
        let Standing { length, lost } = self.store.standing;
        format!("{length} {lost}")
    }

    /// L, the marks and the stripe.
    fn held(&self) -> String {
        format!("{} {}", self.standing(), shown(&self.store.stripe))
    }

    /// L, the marks, the stripe and the spare.
    fn all(&self) -> String {
        format!("{} {}", self.held(), shown(&self.store.spare))
    }
}

impl Default for Drill {
    fn default() -> Drill {
        Drill::new()
    }
}

fn accepted(line: String) -> Told {
    (line, "0".to_string())
}

#[cfg(test)]
mod tests {
    use super::*;
    use crate::note::SAMPLE;

    /// The text of a list of commands.
    fn told(commands: &[Command]) -> String {
        let script: Vec<u8> = commands.iter().flat_map(Command::bytes).collect();
        text(&script)
    }

    fn standing(length: u64, lost: u64) -> Command {
        Command::Standing { length, lost }
    }

    fn price(storage: f64, reads: f64) -> Command {
        Command::Price {
            storage: storage.to_bits(),
            reads: reads.to_bits(),
        }
    }

    fn correct(block: u64, offset: u64, difference: &[u8]) -> Command {
        Command::Correct {
            block,
            offset,
            difference: difference.to_vec(),
        }
    }

    /// The worked layout with data 1 2 3 4.
    fn sample() -> Vec<Command> {
        vec![
            Command::Note(SAMPLE.to_vec()),
            Command::Stripe(vec![1, 2, 3, 4, 9, 9, 9]),
        ]
    }

    const SAMPLE_LINES: &str = "note k 4 n 7\nstripe 01020304090909\n";

    #[test]
    fn the_start() {
        let text = told(&[
            Command::State,
            Command::Encode,
            Command::Lose(0),
            Command::Plan(0),
            price(0.0, f64::NAN),
            Command::View(0),
            Command::Rebuild,
        ]);
        let expected = "state 1 0 - -\nencode 6 1 0 -\nlose 0 6 1 0\nplan 0 6\nprice 6\n\
                        view 0 - 1 0 - -\nrebuild 6 1 0 -\n";
        assert_eq!(text, expected);
        assert_eq!(super::text(b""), "");
    }

    #[test]
    fn worked_stripe_and_correction() {
        let mut commands = sample();
        commands.extend([
            standing(1, u64::MAX),
            Command::Encode,
            correct(0, 0, &[5]),
            correct(4, 0, &[5]),
            correct(3, 1, &[]),
            correct(3, u64::MAX, &[5]),
        ]);
        let expected = "standing 1 18446744073709551615\nencode 0 1 0 01020304396299\n\
                        correct 0 0 1 0 040203044e7b99\ncorrect 4 9 1 0 040203044e7b99\n\
                        correct 3 0 1 0 040203044e7b99\ncorrect 3 12 1 0 040203044e7b99\n";
        assert_eq!(told(&commands), SAMPLE_LINES.to_string() + expected);
    }

    #[test]
    fn worked_plans_and_repairs() {
        let mut commands = sample();
        commands.extend([
            Command::Encode,
            Command::Lose(0),
            Command::Plan(0),
            Command::Junk(255),
            Command::Lose(0),
            Command::Repair(0),
            Command::Repair(0),
            standing(1, 0b1100011),
            Command::Plan(6),
            Command::Plan(5),
            Command::Rebuild,
            standing(1, 0b111),
            Command::Junk(1),
            Command::Rebuild,
            Command::Lose(7),
        ]);
        let expected = "encode 0 1 0 01020304396299\nlose 0 0 1 1\nplan 0 0 1*26 5*129\n\
                        junk 00020304396299\nlose 0 11 1 1\nrepair 0 0 1 0 01020304396299\n\
                        repair 0 10 1 0 01020304396299\nstanding 1 99\nplan 6 0 2*29 3*161\n\
                        plan 5 14\nrebuild 14@0 1 99 01020304396299\nstanding 1 7\n\
                        junk 02030404396299\nrebuild 0 1 0 01020304396299\nlose 7 9 1 0\n";
        assert_eq!(told(&commands), SAMPLE_LINES.to_string() + expected);
    }

    #[test]
    fn worked_reading() {
        let mut commands = sample();
        commands.extend([
            Command::Encode,
            Command::Lose(6),
            Command::Fetch(6),
            Command::Spare(vec![0xEE]),
            Command::View(6),
            Command::Fetch(6),
            Command::View(6),
            Command::View(1),
            Command::View(u64::MAX),
            Command::State,
        ]);
        let expected = "encode 0 1 0 01020304396299\nlose 6 0 1 64\n\
                        fetch 6 13 1 64 01020304396299 -\nspare ee\n\
                        view 6 ee 1 64 01020304396299 ee\n\
                        fetch 6 0 1 64 01020304396299 99\n\
                        view 6 99 1 64 01020304396299 99\n\
                        view 1 02 1 64 01020304396299 99\n\
                        view 18446744073709551615 - 1 64 01020304396299 99\n\
                        state 1 64 01020304396299 99\n";
        assert_eq!(told(&commands), SAMPLE_LINES.to_string() + expected);
    }

    #[test]
    fn worked_prices() {
        let mut commands = sample();
        commands.extend([
            price(1.75, 2.0),
            price(1.7, 0.0),
            price(f64::INFINITY, 1.9),
            price(0.0, f64::NAN),
            Command::Alter(131),
            price(1.75, 2.0),
            Command::Alter(1),
            price(1.75, f64::NAN),
            Command::Note(vec![4, 0, 1, 0, 0, 1]),
            price(9.0, 9.0),
            Command::Note(vec![4, 0, 1, 0, 0x11, 0x20]),
            Command::Note(Vec::new()),
        ]);
        let expected = "price fits 7/4 8/4\nprice large 7/4\nprice reads 8/4\nprice 15\n\
                        alter 131\nprice fits 7/4 8/4\nalter 1\nprice 6\nnote k 1 n 1\n\
                        price 16\nnote refused 5 at 0\nnote refused 1 at 0\n";
        assert_eq!(told(&commands), SAMPLE_LINES.to_string() + expected);
    }

    #[test]
    fn an_altered_layout_lasts_until_the_next_accepted_note() {
        let mut commands = sample();
        commands.extend([
            Command::Alter(130),
            Command::Encode,
            Command::Note(vec![0]),
            Command::Lose(0),
            Command::Note(SAMPLE.to_vec()),
            Command::Encode,
        ]);
        let expected = "alter 130\nencode 6 1 0 01020304090909\nnote refused 1 at 0\n\
                        lose 0 6 1 0\nnote k 4 n 7\nencode 0 1 0 01020304396299\n";
        assert_eq!(told(&commands), SAMPLE_LINES.to_string() + expected);
    }

    #[test]
    fn shown_bytes() {
        assert_eq!(shown(&[]), "-");
        assert_eq!(shown(&[0x0A, 0xFF]), "0aff");
        assert_eq!(shown(&[7; 64]), "07".repeat(64));
        let sum = (0..65).fold(1u128, |sum, _| (sum * 257 + 7) % 4_294_967_291);
        assert_eq!(shown(&[7; 65]), format!("#{sum}"));
    }

    #[test]
    fn junk_goes_by_the_standing_alone() {
        let stripe = |size: usize| Command::Stripe(vec![1; size]);
        let whole = |sets: &[Command]| told(sets).lines().last().unwrap().to_string();
        let few = [standing(2, 2), stripe(5), Command::Junk(3)];
        assert_eq!(whole(&few), "junk 0101040401");
        let none = [standing(0, u64::MAX), stripe(2), Command::Junk(3)];
        assert_eq!(whole(&none), "junk 0101");
        let far = [standing(u64::MAX, 1), stripe(2), Command::Junk(255)];
        assert_eq!(whole(&far), "junk 0000");
        let sixty_five = [standing(1, u64::MAX), stripe(66), Command::Junk(1)];
        let bytes: Vec<u8> = [vec![2; 64], vec![1; 2]].concat();
        assert_eq!(whole(&sixty_five), format!("junk {}", shown(&bytes)));
    }

    #[test]
    fn damaged_scripts() {
        assert_eq!(text(b"TxT"), "state 1 0 - -\ndamaged at 1\n");
        assert_eq!(
            text(b"TTO\0\0\0"),
            "state 1 0 - -\nstate 1 0 - -\ndamaged at 2\n"
        );
        let mut long = b"Q\x01\x08".to_vec();
        long.extend([0; 2049]);
        long.extend(b"T");
        assert_eq!(text(&long), "damaged at 0\n");
        assert_eq!(text(b"\n"), "damaged at 0\n");
    }
}
