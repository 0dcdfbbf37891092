//! Runs another program over all patterns of lost blocks of a layout, sums
//! what it answers, and compares the sums with figures from outside. A file of
//! figures says in its head how it is written; see figures.txt.

use std::io;

use crate::code::{is_lost, Code};
use crate::commands::Command;
use crate::compare::Program;
use crate::note;

/// Every script is shorter than this.
const SCRIPT_END: usize = 60_000;

/// What is added to the bytes of lost blocks before a rebuild.
const JUNK: u8 = 85;

#[derive(Clone, Copy, Debug, PartialEq, Eq)]
enum Counted {
    /// Patterns with an accepted rebuild.
    Whole,
    /// Patterns with a rebuild that is refused for want of a plan.
    Failure,
    /// Patterns with plans throughout, the longest of so many items.
    Longest(usize),
    /// The mean, over patterns with plans throughout and over data blocks, of
    /// the blocks read for one: itself, or those in its plan.
    Reads,
}

#[derive(Debug, PartialEq, Eq)]
pub struct Figure {
    name: String,
    note: Vec<u8>,
    k: usize,
    n: usize,
    lost: usize,
    counted: Counted,
    expected: String,
    patterns: usize,
}

/// What a program answered for one pattern.
#[derive(Default)]
struct Answer {
    whole: bool,
    /// Each lost block that has a plan, and how many items it has.
    plans: Vec<(usize, usize)>,
}

/// The figures of a file, or what is wrong with it.
pub fn read(text: &str) -> Result<Vec<Figure>, String> {
    let mut figures = Vec::new();
    for (index, line) in text.lines().enumerate() {
        let line = line.trim();
        if !line.is_empty() && !line.starts_with('#') {
            let figure = read_figure(line).ok_or(format!("line {}: no figure", index + 1))?;
            figures.push(figure);
        }
    }
    match figures.is_empty() {
        true => Err("no figures".to_string()),
        false => Ok(figures),
    }
}

fn read_figure(line: &str) -> Option<Figure> {
    let parts: Vec<&str> = line.split('|').map(str::trim).collect();
    let [name, note, lost, counted, expected, patterns] = parts[..] else {
        return None;
    };
    let byte = |digits| u8::from_str_radix(digits, 16).ok();
    let note: Vec<u8> = note.split_whitespace().map(byte).collect::<Option<_>>()?;
    let code = Code::of(&note::read(&note).ok()?);
    let counted = match counted.split_whitespace().collect::<Vec<_>>()[..] {
        ["whole"] => Counted::Whole,
        ["failure"] => Counted::Failure,
        ["longest", items] => Counted::Longest(items.parse().ok()?),
        ["reads"] => Counted::Reads,
        _ => return None,
    };
    Some(Figure {
        name: name.to_string(),
        note,
        k: code.k,
        n: code.n(),
        lost: lost.parse().ok()?,
        counted,
        expected: expected.to_string(),
        patterns: patterns.parse().ok()?,
    })
}

/// The line for a figure, and whether the program gave it.
pub fn check(figure: &Figure, program: &Program) -> io::Result<(String, bool)> {
    check_with(figure, |script| {
        let (output, status) = program.run(script)?;
        let mut text = String::from_utf8_lossy(&output).into_owned();
        if status.code().is_none() {
            text += &format!("({status})\n");
        }
        Ok(text)
    })
}

fn check_with(
    figure: &Figure,
    run: impl Fn(&[u8]) -> io::Result<String>,
) -> io::Result<(String, bool)> {
    let mut answers = Vec::new();
    let start = format!("{} | {} lost", figure.name, figure.lost);
    for script in figure.scripts() {
        let bytes: Vec<u8> = script.0.iter().flat_map(Command::bytes).collect();
        match figure.answers(&script.1, &run(&bytes)?) {
            Ok(more) => answers.extend(more),
            Err(what) => return Ok((format!("{start} | {what}"), false)),
        }
    }
    let found = figure.sum(&answers);
    let same = found == figure.expected && answers.len() == figure.patterns;
    let line = format!(
        "{start} | {} | {found} of {}",
        figure.counted_name(),
        answers.len()
    );
    Ok(match same {
        true => (format!("{line} | ok"), true),
        false => (
            format!(
                "{line} | expected {} of {}",
                figure.expected, figure.patterns
            ),
            false,
        ),
    })
}

/// All sets of `size` numbers below `n`, as bits.
fn patterns(n: usize, size: usize) -> Vec<u64> {
    if size == 0 {
        return vec![0];
    }
    let with_highest = |highest: usize| {
        let below = patterns(highest, size - 1);
        below.into_iter().map(move |set| set | 1 << highest)
    };
    (size - 1..n).flat_map(with_highest).collect()
}

impl Figure {
    fn counted_name(&self) -> String {
        match self.counted {
            Counted::Whole => "whole".to_string(),
            Counted::Failure => "failure".to_string(),
            Counted::Longest(items) => format!("longest {items}"),
            Counted::Reads => "reads".to_string(),
        }
    }

    fn by_rebuild(&self) -> bool {
        matches!(self.counted, Counted::Whole | Counted::Failure)
    }

    fn blocks(&self, lost: u64) -> impl Iterator<Item = usize> {
        (0..self.n).filter(move |&block| is_lost(lost, block))
    }

    /// Scripts, each with the patterns it asks for.
    fn scripts(&self) -> Vec<(Vec<Command>, Vec<u64>)> {
        let start = Command::Note(self.note.clone());
        let mut scripts = Vec::new();
        let mut size = SCRIPT_END;
        for lost in patterns(self.n, self.lost) {
            let commands = self.commands(lost);
            let more: usize = commands.iter().map(|command| command.bytes().len()).sum();
            if size + more >= SCRIPT_END {
                scripts.push((vec![start.clone()], Vec::new()));
                size = start.bytes().len();
            }
            let (script, asked) = scripts.last_mut().expect("just begun");
            script.extend(commands);
            asked.push(lost);
            size += more;
        }
        scripts
    }

    /// The commands for one pattern.
    fn commands(&self, lost: u64) -> Vec<Command> {
        let standing = Command::Standing { length: 1, lost };
        let data = (1..=self.k as u8).chain(vec![0; self.n - self.k]);
        let mut commands = vec![Command::Stripe(data.collect()), Command::Encode, standing];
        match self.by_rebuild() {
            true => commands.extend([Command::Junk(JUNK), Command::Rebuild]),
            false => commands.extend(self.blocks(lost).map(|b| Command::Plan(b as u64))),
        }
        commands
    }

    /// The answers in the text for a script, or a line that cannot be right.
    fn answers(&self, asked: &[u64], text: &str) -> Result<Vec<Answer>, String> {
        let mut lines = text.lines();
        let note = format!("note k {} n {}", self.k, self.n);
        let mut next = || lines.next().unwrap_or("(no more lines)");
        same(next(), &note)?;
        let mut answers = Vec::new();
        for &lost in asked {
            let answer = self.answer(lost, &mut next);
            answers.push(answer.map_err(|what| format!("marks {lost}: {what}"))?);
        }
        match next() {
            "(no more lines)" => Ok(answers),
            more => Err(format!("one line too many: {}", shown(more))),
        }
    }

    fn answer<'a>(&self, lost: u64, next: &mut impl FnMut() -> &'a str) -> Result<Answer, String> {
        let odd = |line: &str| format!("unexpected line: {}", shown(line));
        let _stripe = next();
        let line = next();
        let encoded = line.strip_prefix("encode 0 1 0 ").ok_or(odd(line))?;
        same(next(), &format!("standing 1 {lost}"))?;
        let mut answer = Answer::default();
        if self.by_rebuild() {
            let line = next();
            let junk = line.strip_prefix("junk ").ok_or(odd(line))?;
            let line = next();
            answer.whole = line == format!("rebuild 0 1 0 {encoded}");
            let refused = |b: usize| line == format!("rebuild 14@{b} 1 {lost} {junk}");
            if !answer.whole && !self.blocks(lost).any(refused) {
                return Err(odd(line));
            }
            return Ok(answer);
        }
        for block in self.blocks(lost) {
            let line = next();
            if line == format!("plan {block} 14") {
                continue;
            }
            let start = format!("plan {block} 0");
            let items = line.strip_prefix(&start).ok_or(odd(line))?;
            let survivor = |item: &str| {
                let from = item.split_once('*').and_then(|(from, _)| from.parse().ok());
                from.is_some_and(|b: usize| b < self.n && !is_lost(lost, b))
            };
            let count = items.split_whitespace().count();
            if count == 0 || !items.split_whitespace().all(survivor) {
                return Err(odd(line));
            }
            answer.plans.push((block, count));
        }
        answer.whole = answer.plans.len() == self.lost;
        Ok(answer)
    }

    fn sum(&self, answers: &[Answer]) -> String {
        let count = |wanted: &dyn Fn(&Answer) -> bool| {
            let found = answers.iter().filter(|answer| wanted(answer)).count();
            found.to_string()
        };
        match self.counted {
            Counted::Whole => count(&|answer| answer.whole),
            Counted::Failure => count(&|answer| !answer.whole),
            Counted::Longest(items) => count(&|answer| {
                let longest = answer.plans.iter().map(|plan| plan.1).max();
                answer.whole && longest == Some(items)
            }),
            Counted::Reads => self.mean_reads(answers),
        }
    }

    /// To two decimals; `-` if no pattern has plans throughout.
    fn mean_reads(&self, answers: &[Answer]) -> String {
        let whole: Vec<&Answer> = answers.iter().filter(|answer| answer.whole).collect();
        if whole.is_empty() {
            return "-".to_string();
        }
        let plans = whole.iter().flat_map(|answer| &answer.plans);
        let data_plans = plans.filter(|(block, _)| *block < self.k);
        let all = self.k * whole.len();
        let more: usize = data_plans.map(|(_, items)| items - 1).sum();
        format!("{:.2}", (all + more) as f64 / all as f64)
    }
}

fn same(found: &str, expected: &str) -> Result<(), String> {
    match found == expected {
        true => Ok(()),
        false => Err(format!(
            "expected line: {expected}, found: {}",
            shown(found)
        )),
    }
}

/// The start of a line that may be long and hold anything.
fn shown(line: &str) -> String {
    line.chars()
        .take(120)
        .flat_map(char::escape_debug)
        .collect()
}

#[cfg(test)]
mod tests {
    use super::*;
    use crate::drill;

    const FILE: &str = include_str!("../figures.txt");

    fn model(script: &[u8]) -> io::Result<String> {
        assert!(script.len() < SCRIPT_END);
        Ok(drill::text(script))
    }

    #[test]
    fn the_model_gives_the_figures() {
        for figure in read(FILE).unwrap() {
            let (line, same) = check_with(&figure, model).unwrap();
            assert!(same, "{line}");
        }
    }

    /// A program that says 14 always, and one that plans with less or more.
    #[test]
    fn other_answers_differ() {
        let differ = |line: &str, other: &dyn Fn(String) -> String| {
            let figure = read_figure(line).unwrap();
            let (line, same) = check_with(&figure, |s| Ok(other(model(s)?))).unwrap();
            assert!(!same, "{line}");
        };
        let pair = "a | 0F 00 02 00 01 04 00 01 00 01 02 04 00 01 00 01 02";
        let whole = &format!("{pair} | 2 | whole | 21 | 21");
        let longest = &format!("{pair} | 1 | longest 2 | 6 | 7");
        differ(whole, &|text| text.replace("rebuild 0", "rebuild 14@0"));
        differ(whole, &|text| {
            text.replacen("\nrebuild 0 1 0 01", "\nrebuild 0 1 0 02", 1)
        });
        differ(whole, &|text| text + "state\n");
        differ(whole, &|text| text.replace("n 7", "n 8"));
        differ(longest, &|text| text.replacen(" 5*129", "", 1));
        differ(longest, &|text| text.replacen(" 5*129", " 5*129 6*1", 1));
        differ(longest, &|text| text.replacen(" 1*26", " 0*26", 1));
        differ(longest, &|text| text.replacen(" 1*26 5*129", "", 1));
        differ(&format!("{pair} | 2 | whole | 21 | 22"), &|text| text);
        differ(&format!("{pair} | 2 | failure | 1 | 21"), &|text| text);
    }

    #[test]
    fn faults_of_a_file() {
        let leaf = "a | 04 00 01 00 03 08";
        let fault = |text: &str| read(text).unwrap_err();
        assert_eq!(fault("# nothing\n\n"), "no figures");
        assert_eq!(
            fault(&format!("{leaf} | 1 | whole | 1")),
            "line 1: no figure"
        );
        assert_eq!(
            fault(&format!("\n{leaf} | 1 | most | 1 | 1")),
            "line 2: no figure"
        );
        assert_eq!(
            fault("a | 04 00 01 00 03 | 1 | whole | 1 | 1"),
            "line 1: no figure"
        );
        assert_eq!(
            read(&format!("{leaf} | 1 | longest 8 | 11 | 11"))
                .unwrap()
                .len(),
            1
        );
    }

    #[test]
    fn patterns_of_lost_blocks() {
        assert_eq!(patterns(5, 0), [0]);
        assert_eq!(patterns(3, 2), [0b011, 0b101, 0b110]);
        assert_eq!(patterns(2, 3), []);
        assert_eq!(patterns(12, 4).len(), 495);
        assert!(patterns(12, 4).iter().all(|set| set.count_ones() == 4));
    }

    #[test]
    fn long_lists_make_more_scripts() {
        let line = "a | 04 00 01 00 10 20 | 3 | whole | 17296 | 17296";
        let scripts = read_figure(line).unwrap().scripts();
        let asked: usize = scripts.iter().map(|script| script.1.len()).sum();
        assert_eq!(asked, 17_296);
        for (script, _) in &scripts {
            let size: usize = script.iter().map(|c| c.bytes().len()).sum();
            assert!(size < SCRIPT_END);
        }
        assert!(scripts.len() > 10);
    }
}
