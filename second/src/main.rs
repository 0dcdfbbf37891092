//! A second program for the erasure-coded block store, written from its
//! definition alone, to compare the proved store with. It is slow and clear,
//! and goes other ways where there are others: products by shift and reduce,
//! inverses by powers, groups named by paths, plans by one reduced matrix.
//!
//!   second depot-text
//!       reads an input on standard input and writes the text the store's
//!       program must write for it
//!   second compare-depot SEED COUNT PROGRAM [ARGS..]
//!       runs PROGRAM on COUNT inputs made from SEED and compares its answers;
//!       prints the first difference and ends with 1, or a tally and 0
//!   second depot-input SEED INDEX
//!       writes one of these inputs, to look into a difference
//!   second drill-text
//!       reads a script on standard input and writes the answers
//!   second compare-drill SEED COUNT PROGRAM [ARGS..]
//!       the same comparison with COUNT scripts, line by line
//!   second drill-script SEED INDEX
//!       writes one of these scripts
//!   second drill-sample
//!       writes one script with every letter and every refusal of every call
//!   second figures FILE PROGRAM [ARGS..]
//!       runs PROGRAM on scripts of all patterns of lost blocks that FILE names
//!       (figures.txt) and compares its sums with the figures there; prints a
//!       line for each, and ends with 1 on any difference
//!
//! A wrong command line or file, or a program that cannot be run, ends with 2.
//! field.rs, note.rs, code.rs, plan.rs, store.rs and depot.rs are the store;
//! commands.rs and drill.rs run scripts; random.rs, inputs.rs and compare.rs
//! make the comparison of the program, scripts.rs, scripts/sample.rs and
//! drill_compare.rs that of scripts, figures.rs that of figures.

use std::io::{self, Read, Write};
use std::process::ExitCode;

use second::compare::{compare, hex, Counts, Difference, Program};
use second::{depot, drill, drill_compare, figures, inputs, scripts};

const USAGE: &str = "usage: second depot-text
       second compare-depot SEED COUNT PROGRAM [ARGS..]
       second depot-input SEED INDEX
       second drill-text
       second compare-drill SEED COUNT PROGRAM [ARGS..]
       second drill-script SEED INDEX
       second drill-sample
       second figures FILE PROGRAM [ARGS..]";

fn main() -> ExitCode {
    let arguments: Vec<String> = std::env::args().skip(1).collect();
    let words: Vec<&str> = arguments.iter().map(String::as_str).collect();
    let done = match words[..] {
        ["depot-text"] => answer(u64::MAX, depot::text),
        ["drill-text"] => answer(drill::MOST_SCRIPT as u64, drill::text),
        ["drill-sample"] => io::stdout().write_all(&scripts::sample()),
        ["figures", file, name, ..] => return check_figures(file, &program(name, &words[3..])),
        [what @ ("depot-input" | "drill-script"), seed, index] => {
            let (Ok(seed), Ok(index)) = (seed.parse(), index.parse()) else {
                return fail(USAGE);
            };
            let bytes = match what {
                "depot-input" => inputs::input(seed, index),
                _ => scripts::script(seed, index),
            };
            io::stdout().write_all(&bytes)
        }
        [what @ ("compare-depot" | "compare-drill"), seed, count, name, ..] => {
            let (Ok(seed), Ok(count)) = (seed.parse(), count.parse()) else {
                return fail(USAGE);
            };
            let program = program(name, &words[4..]);
            return match what {
                "compare-depot" => compare_depot(seed, count, &program),
                _ => compare_drill(seed, count, &program),
            };
        }
        _ => return fail(USAGE),
    };
    match done {
        Ok(()) => ExitCode::SUCCESS,
        Err(error) => fail(&error.to_string()),
    }
}

/// The program that is run beside this one.
fn program(name: &str, arguments: &[&str]) -> Program {
    Program {
        name: name.to_string(),
        arguments: arguments.iter().map(|word| word.to_string()).collect(),
    }
}

fn fail(message: &str) -> ExitCode {
    eprintln!("{message}");
    ExitCode::from(2)
}

/// Writes the text for standard input, of which at most `most` bytes count.
fn answer(most: u64, text: fn(&[u8]) -> String) -> io::Result<()> {
    let mut input = Vec::new();
    io::stdin().take(most).read_to_end(&mut input)?;
    io::stdout().write_all(text(&input).as_bytes())
}

fn compare_depot(seed: u64, count: u64, program: &Program) -> ExitCode {
    let compared = compare(seed, count, program);
    end(compared, program, |found| print_difference(seed, found))
}

fn compare_drill(seed: u64, count: u64, program: &Program) -> ExitCode {
    let compared = drill_compare::compare(seed, count, program);
    end(compared, program, |found| {
        print_line_difference(seed, found)
    })
}

/// Prints how a comparison ended: its tally, before that a difference if there
/// is one.
fn end<T: Counts, D>(
    compared: io::Result<(T, Option<D>)>,
    program: &Program,
    print: impl Fn(&D),
) -> ExitCode {
    let (tally, difference) = match compared {
        Err(error) => return fail(&format!("{}: {error}", program.name)),
        Ok(compared) => compared,
    };
    if let Some(difference) = &difference {
        print(difference);
    }
    println!("{}", tally.line());
    ExitCode::from(u8::from(difference.is_some()))
}

fn print_difference(seed: u64, difference: &Difference) {
    println!("difference: seed {seed}, index {}", difference.index);
    println!("input: {}", hex(&difference.input));
    println!("expected:\n{}", difference.expected);
    println!("found:\n{}", difference.found);
}

fn check_figures(file: &str, program: &Program) -> ExitCode {
    let text = std::fs::read_to_string(file).map_err(|error| error.to_string());
    let figures = match text.and_then(|text| figures::read(&text)) {
        Ok(figures) => figures,
        Err(error) => return fail(&format!("{file}: {error}")),
    };
    let mut all_same = true;
    for figure in &figures {
        match figures::check(figure, program) {
            Err(error) => return fail(&format!("{}: {error}", program.name)),
            Ok((line, same)) => {
                println!("{line}");
                all_same &= same;
            }
        }
    }
    ExitCode::from(u8::from(!all_same))
}

fn print_line_difference(seed: u64, difference: &drill_compare::Difference) {
    let drill_compare::Difference { index, number, .. } = difference;
    println!("difference: seed {seed}, index {index}, command {number} (from 0)");
    println!("command: {}", hex(&difference.command));
    print!("expected: {}", difference.expected);
    print!("found:    {}", difference.found);
}
