//! Runs another program on generated scripts and compares what it writes,
//! line by line, with the text of this one.

use std::collections::BTreeMap;
use std::io;

use crate::compare::{share_out, Counts, Indexed, Program, Queue};
use crate::drill::{steps, Step};
use crate::scripts;

/// The first line of a script on which the two programs differ.
pub struct Difference {
    pub index: u64,
    /// The number of the command, from 0.
    pub number: usize,
    pub command: Vec<u8>,
    pub expected: String,
    pub found: String,
}

/// How many answers of each kind there were.
#[derive(Default)]
pub struct Tally {
    scripts: usize,
    commands: usize,
    kinds: BTreeMap<(String, String), usize>,
    bad_ends: usize,
}

/// Every kind of answer of every letter, and of damaged scripts.
const KINDS: [(&str, &str); 17] = [
    ("N", "0 1 2 3 4 5"),
    ("A", "0"),
    ("S", "0"),
    ("B", "0"),
    ("Q", "0"),
    ("J", "0"),
    ("E", "0 6 7"),
    ("O", "0 6 7 8 9 11"),
    ("P", "0 6 7 8 9 10 14"),
    ("R", "0 6 7 8 9 10 14"),
    ("U", "0 6 7 8 14"),
    ("D", "0 6 7 8 9 11 12"),
    ("F", "0 6 7 8 9 13 14"),
    ("V", "0 6 7 8 9 13 14"),
    ("C", "fits large reads 6 15 16"),
    ("T", "0"),
    ("damaged", "cut letter long"),
];

impl Counts for Tally {
    fn join(&mut self, other: Tally) {
        self.scripts += other.scripts;
        self.commands += other.commands;
        self.bad_ends += other.bad_ends;
        for (kind, count) in other.kinds {
            *self.kinds.entry(kind).or_default() += count;
        }
    }

    fn line(&self) -> String {
        let mut parts = Vec::new();
        for (letter, kinds) in KINDS {
            let counts = kinds.split(' ').map(|kind| {
                let count = self.of(letter, kind);
                match kinds {
                    "0" => format!(" {count}"),
                    _ => format!(" {kind}:{count}"),
                }
            });
            parts.push(letter.to_string() + &counts.collect::<String>());
        }
        format!(
            "compared {} scripts, {} commands: {}; ended with a status not 0: {}",
            self.scripts,
            self.commands,
            parts.join(", "),
            self.bad_ends
        )
    }
}

impl Indexed for Difference {
    fn index(&self) -> u64 {
        self.index
    }
}

impl Tally {
    pub fn count(&mut self, steps: &[Step]) {
        self.scripts += 1;
        self.commands += steps.len();
        for step in steps {
            *self.kinds.entry(step.kind.clone()).or_default() += 1;
        }
    }

    fn of(&self, letter: &str, kind: &str) -> usize {
        let key = (letter.to_string(), kind.to_string());
        self.kinds.get(&key).copied().unwrap_or(0)
    }

    /// The kinds of answer that never came.
    pub fn missing(&self) -> Vec<(&'static str, &'static str)> {
        let all = KINDS
            .iter()
            .flat_map(|(letter, kinds)| kinds.split(' ').map(|kind| (*letter, kind)));
        all.filter(|(letter, kind)| self.of(letter, kind) == 0)
            .collect()
    }
}

/// The first line that differs; a missing newline or more lines count too.
fn first_difference(script: &[u8], steps: &[Step], found: &[u8]) -> Option<Difference> {
    let mut lines = found.split_inclusive(|&byte| byte == b'\n');
    let mut number = 0;
    loop {
        let step = steps.get(number);
        let expected = step.map(|step| step.line.clone() + "\n");
        let line = lines.next();
        if expected.as_ref().map(|text| text.as_bytes()) != line {
            return Some(Difference {
                index: 0,
                number,
                command: step.map_or(Vec::new(), |step| script[step.place.clone()].to_vec()),
                expected: expected.unwrap_or("(no more lines)\n".to_string()),
                found: line.map_or("(no more lines)\n".into(), lossy),
            });
        }
        step?;
        number += 1;
    }
}

fn lossy(line: &[u8]) -> String {
    let text = String::from_utf8_lossy(line).into_owned();
    match text.ends_with('\n') {
        true => text,
        false => text + " (no newline)\n",
    }
}

/// Compares the scripts 0 to `count - 1` of a seed. Gives the tally, and the
/// difference with the lowest index if there is one.
pub fn compare(
    seed: u64,
    count: u64,
    program: &Program,
) -> io::Result<(Tally, Option<Difference>)> {
    share_out(count, |queue| work_off(seed, queue, program))
}

fn work_off(
    seed: u64,
    queue: &Queue,
    program: &Program,
) -> io::Result<(Tally, Option<Difference>)> {
    let mut tally = Tally::default();
    while let Some(index) = queue.take() {
        let script = scripts::script(seed, index);
        let steps = steps(&script);
        let (found, status) = program.run(&script)?;
        tally.count(&steps);
        tally.bad_ends += usize::from(!status.success());
        if let Some(mut difference) = first_difference(&script, &steps, &found) {
            queue.found(index);
            difference.index = index;
            if !status.success() {
                difference.found += &format!("({status})\n");
            }
            return Ok((tally, Some(difference)));
        }
        if status.code().is_none() {
            return Err(io::Error::other(format!("script {index}: {status}")));
        }
    }
    Ok((tally, None))
}

#[cfg(test)]
mod tests {
    use super::*;
    use crate::drill;

    #[test]
    fn twenty_scripts_have_every_kind_of_answer() {
        for seed in [1, 2] {
            let mut tally = Tally::default();
            for index in 0..20 {
                let script = scripts::script(seed, index);
                assert!(script.len() < 60_000);
                tally.count(&steps(&script));
            }
            assert_eq!(tally.missing(), []);
            assert!(tally.commands > 20_000);
        }
    }

    #[test]
    fn the_sample_has_every_kind_of_answer() {
        let script = scripts::sample();
        let mut tally = Tally::default();
        tally.count(&steps(&script));
        let damages = [
            ("damaged", "cut"),
            ("damaged", "letter"),
            ("damaged", "long"),
        ];
        assert_eq!(tally.missing(), damages);
        assert!(tally.commands > 1_000);
    }

    #[test]
    fn differences_are_found() {
        let script = b"TO\x01\0\0\0\0\0\0\0J\x07";
        let steps = steps(script);
        let right = drill::text(script);
        assert!(first_difference(script, &steps, right.as_bytes()).is_none());
        let number = |found: &str| {
            let difference = first_difference(script, &steps, found.as_bytes()).unwrap();
            (difference.number, difference.command)
        };
        let last = (2, vec![b'J', 7]);
        assert_eq!(number(right.trim_end()), last);
        assert_eq!(number(&right.replace("junk", "jun")), last);
        assert_eq!(number(&(right.clone() + "junk -\n")), (3, vec![]));
        assert_eq!(number(""), (0, vec![b'T']));
        let found = first_difference(script, &steps, b"state 1 0 - -\nlose 1 6 1 2\n").unwrap();
        assert_eq!(found.number, 1);
        assert_eq!(found.command, script[1..10]);
        assert_eq!(found.expected, "lose 1 6 1 0\n");
        assert_eq!(found.found, "lose 1 6 1 2\n");
    }
}
