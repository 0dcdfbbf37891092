//! Runs another program on generated inputs and compares what it writes with
//! the text of this one.

use std::collections::BTreeMap;
use std::io::{self, Write};
use std::process::{Command, ExitStatus, Stdio};
use std::sync::atomic::{AtomicU64, Ordering};
use std::thread;

use crate::{depot, inputs};

/// How many inputs are run at the same time.
const WORKERS: usize = 2;

pub struct Program {
    pub name: String,
    pub arguments: Vec<String>,
}

/// An input on which the two programs differ.
pub struct Difference {
    pub index: u64,
    pub input: Vec<u8>,
    pub expected: String,
    pub found: String,
}

/// How many answers of each kind there were.
#[derive(Default)]
pub struct Tally {
    kinds: BTreeMap<String, usize>,
    bad_ends: usize,
}

/// What each worker counts by itself, and is then put together.
pub trait Counts: Default {
    fn join(&mut self, other: Self);

    /// One line with every kind of answer, those that never came too.
    fn line(&self) -> String;
}

/// A difference, told from others by the number of its input or script.
pub trait Indexed {
    fn index(&self) -> u64;
}

impl Indexed for Difference {
    fn index(&self) -> u64 {
        self.index
    }
}

/// The work shared by the workers: the next input, and the lowest difference.
pub struct Queue {
    next: AtomicU64,
    lowest: AtomicU64,
    count: u64,
}

impl Queue {
    fn new(count: u64) -> Queue {
        Queue {
            next: AtomicU64::new(0),
            lowest: AtomicU64::new(u64::MAX),
            count,
        }
    }

    /// Notes a difference: no input after it is needed.
    pub fn found(&self, index: u64) {
        self.lowest.fetch_min(index, Ordering::SeqCst);
    }

    /// An index below the lowest difference, while there is one.
    pub fn take(&self) -> Option<u64> {
        let index = self.next.fetch_add(1, Ordering::SeqCst);
        let end = self.lowest.load(Ordering::SeqCst).min(self.count);
        (index < end).then_some(index)
    }
}

impl Program {
    pub fn run(&self, input: &[u8]) -> io::Result<(Vec<u8>, ExitStatus)> {
        let mut child = Command::new(&self.name)
            .args(&self.arguments)
            .stdin(Stdio::piped())
            .stdout(Stdio::piped())
            .stderr(Stdio::null())
            .spawn()?;
        let mut pipe = child.stdin.take().expect("piped");
        // A program may answer before it has read all; then the pipe breaks.
        let output = thread::scope(|scope| {
            scope.spawn(move || pipe.write_all(input));
            child.wait_with_output()
        })?;
        Ok((output.stdout, output.status))
    }
}

impl Counts for Tally {
    fn join(&mut self, other: Tally) {
        for (kind, count) in other.kinds {
            *self.kinds.entry(kind).or_default() += count;
        }
        self.bad_ends += other.bad_ends;
    }

    fn line(&self) -> String {
        let layouts = LAYOUTS.map(|kind| self.of(kind));
        let parts: Vec<String> = LAYOUTS
            .iter()
            .zip(layouts)
            .map(|(kind, count)| format!("{kind} {count}"))
            .collect();
        let mut line = format!(
            "compared {} inputs: layout {} ({})",
            self.compared(),
            layouts.iter().sum::<usize>(),
            parts.join(", ")
        );
        for number in 1..=16 {
            let kind = format!("refused {number}");
            let expected = [1, 2, 3, 5, 7, 8].contains(&number);
            if expected || self.of(&kind) > 0 {
                line += &format!(", {kind}: {}", self.of(&kind));
            }
        }
        line + &format!("; ended with a status not 0: {}", self.bad_ends)
    }
}

impl Tally {
    fn count(&mut self, text: &str) {
        *self.kinds.entry(kind_of(text)).or_default() += 1;
    }

    fn of(&self, kind: &str) -> usize {
        self.kinds.get(kind).copied().unwrap_or(0)
    }

    fn compared(&self) -> usize {
        self.kinds.values().sum()
    }
}

const LAYOUTS: [&str; 4] = ["nothing lost", "all have plans", "some have", "none has"];

fn kind_of(text: &str) -> String {
    if text.starts_with("refused") {
        return text.trim_end().to_string();
    }
    let lost = text.lines().count() - 1;
    let without = text.lines().filter(|line| line.ends_with(" 14")).count();
    let kind = match (lost, without) {
        (0, _) => LAYOUTS[0],
        (_, 0) => LAYOUTS[1],
        _ if without < lost => LAYOUTS[2],
        _ => LAYOUTS[3],
    };
    kind.to_string()
}

/// Shares the numbers 0 to `count - 1` out to workers, each of which takes from
/// the queue until it finds a difference or the queue is empty. Gives the
/// tallies joined, and the difference with the lowest index if there is one.
pub fn share_out<T, D>(
    count: u64,
    work: impl Fn(&Queue) -> io::Result<(T, Option<D>)> + Sync,
) -> io::Result<(T, Option<D>)>
where
    T: Counts + Send,
    D: Indexed + Send,
{
    let queue = Queue::new(count);
    let results: Vec<io::Result<(T, Option<D>)>> = thread::scope(|scope| {
        let start = || scope.spawn(|| work(&queue));
        let workers: Vec<_> = (0..WORKERS).map(|_| start()).collect();
        let join = |worker: thread::ScopedJoinHandle<'_, _>| worker.join().expect("worker");
        workers.into_iter().map(join).collect()
    });
    let mut tally = T::default();
    let mut differences = Vec::new();
    for result in results {
        let (part, difference) = result?;
        tally.join(part);
        differences.extend(difference);
    }
    Ok((tally, differences.into_iter().min_by_key(D::index)))
}

/// Compares the inputs 0 to `count - 1` of a seed.
pub fn compare(
    seed: u64,
    count: u64,
    program: &Program,
) -> io::Result<(Tally, Option<Difference>)> {
    share_out(count, |queue| work_off(seed, queue, program))
}

fn work_off(
    seed: u64,
    queue: &Queue,
    program: &Program,
) -> io::Result<(Tally, Option<Difference>)> {
    let mut tally = Tally::default();
    while let Some(index) = queue.take() {
        let input = inputs::input(seed, index);
        let expected = depot::text(&input);
        let (found, status) = program.run(&input)?;
        tally.count(&expected);
        tally.bad_ends += usize::from(!status.success());
        let killed = status.code().is_none();
        if killed || found != expected.as_bytes() {
            queue.found(index);
            let mut found = String::from_utf8_lossy(&found).into_owned();
            if killed {
                found += &format!("({status})\n");
            }
            let difference = Difference {
                index,
                input,
                expected,
                found,
            };
            return Ok((tally, Some(difference)));
        }
    }
    Ok((tally, None))
}

pub fn hex(bytes: &[u8]) -> String {
    bytes.iter().map(|byte| format!("{byte:02X}")).collect()
}

#[cfg(test)]
mod tests {
    use super::*;

    #[test]
    fn kinds_of_answers() {
        assert_eq!(kind_of("refused 7\n"), "refused 7");
        assert_eq!(kind_of("layout 4 7\n"), "nothing lost");
        assert_eq!(kind_of("layout 4 7\nlost 0 1*26 5*129\n"), "all have plans");
        assert_eq!(
            kind_of("layout 4 7\nlost 0 14\nlost 6 2*29 3*161\n"),
            "some have"
        );
        assert_eq!(kind_of("layout 4 7\nlost 0 14\nlost 1 14\n"), "none has");
    }

    #[test]
    fn four_hundred_inputs_have_every_kind_of_answer() {
        let mut tally = Tally::default();
        for index in 0..400 {
            tally.count(&depot::text(&inputs::input(1, index)));
        }
        for number in [1, 2, 3, 5, 7, 8] {
            assert!(tally.of(&format!("refused {number}")) >= 5);
        }
        for kind in LAYOUTS {
            assert!(tally.of(kind) >= 5);
        }
        assert_eq!(tally.of("refused 4"), 0);
        assert_eq!(tally.compared(), 400);
    }
}
