//! Processor time of a console's calls, job by job.
//!
//! A console runs the scripts of many jobs; where such a run takes longest, it
//! is taken apart, down to a job by itself. So the slowest calls are found, and
//! every one over a limit, without a run for each.

use std::collections::BinaryHeap;
use std::io::{self, Write};
use std::process::{Command, Stdio};
use std::thread;
use std::time::{Duration, Instant};

/// Seconds by the clock after which a run is stopped.
const PATIENCE: u64 = 20;

/// A console takes that many bytes at most.
const LONGEST: usize = 65_536;

#[repr(C)]
#[derive(Default)]
struct Usage {
    user: [i64; 2],
    system: [i64; 2],
    others: [i64; 14],
}

extern "C" {
    fn getrusage(who: i32, usage: *mut Usage) -> i32;
}

/// Microseconds of all children that have ended.
fn spent() -> i64 {
    let mut usage = Usage::default();
    // SAFETY: `usage` has the layout of 64-bit Linux, and -1 asks for children.
    unsafe { getrusage(-1, &mut usage) };
    (usage.user[0] + usage.system[0]) * 1_000_000 + usage.user[1] + usage.system[1]
}

pub struct Console {
    program: String,
    /// Microseconds of a run without a line.
    start: i64,
}

impl Console {
    pub fn new(program: &str) -> io::Result<Self> {
        let mut console = Console { program: program.into(), start: 0 };
        let runs: io::Result<Vec<i64>> = (0..50).map(|_| console.run("")).collect();
        console.start = runs?.into_iter().min().unwrap_or(0);
        Ok(console)
    }

    pub fn start(&self) -> i64 {
        self.start
    }

    /// Microseconds beyond the start.
    fn run(&self, script: &str) -> io::Result<i64> {
        let before = spent();
        let mut child =
            Command::new(&self.program).stdin(Stdio::piped()).stdout(Stdio::null()).spawn()?;
        child.stdin.take().expect("a pipe").write_all(script.as_bytes())?;
        let until = Instant::now() + Duration::from_secs(PATIENCE);
        while child.try_wait()?.is_none() {
            if Instant::now() > until {
                child.kill()?;
                child.wait()?;
                return Ok(PATIENCE as i64 * 1_000_000);
            }
            thread::sleep(Duration::from_micros(200));
        }
        Ok(spent() - before - self.start)
    }

    /// The least of some runs, as other programs can only add to one.
    fn steadily(&self, script: &str) -> io::Result<i64> {
        (0..3).try_fold(i64::MAX, |least, _| Ok(least.min(self.run(script)?)))
    }
}

/// What was found: the microseconds of those over the limit, and the slowest.
pub struct Slow {
    pub over: Vec<(i64, usize)>,
    pub worst: (i64, usize),
}

/// The jobs whose scripts take more than `limit` microseconds, and the slowest.
pub fn slowest(console: &Console, scripts: &[String], limit: i64) -> io::Result<Slow> {
    let mut heap = BinaryHeap::new();
    let (mut from, mut length) = (0, 0);
    for (i, script) in scripts.iter().enumerate() {
        if length + script.len() > LONGEST || i - from == 64 {
            heap.push((console.run(&scripts[from..i].concat())?, from, i));
            (from, length) = (i, 0);
        }
        length += script.len();
    }
    heap.push((console.run(&scripts[from..].concat())?, from, scripts.len()));
    let mut found = Slow { over: Vec::new(), worst: (0, 0) };
    while let Some((took, from, to)) = heap.pop() {
        if took <= limit.min(found.worst.0) {
            break;
        }
        if to - from == 1 {
            let steady = if took > limit { console.steadily(&scripts[from])? } else { took };
            found.worst = found.worst.max((steady, from));
            if steady > limit {
                found.over.push((steady, from));
            }
            continue;
        }
        let middle = (from + to) / 2;
        for (from, to) in [(from, middle), (middle, to)] {
            heap.push((console.run(&scripts[from..to].concat())?, from, to));
        }
    }
    Ok(found)
}

/// A job's slowest call after the first, and its number: `script` is the job's
/// records with a first call, and `call` is made `calls` times more.
pub fn slowest_call(
    console: &Console,
    script: &str,
    call: &str,
    calls: usize,
) -> io::Result<(i64, usize)> {
    let after = |n: usize| console.steadily(&(script.to_owned() + &call.repeat(n)));
    let mut heap = BinaryHeap::new();
    let (first, last) = (after(0)?, after(calls)?);
    heap.push((last - first, 0, calls, first, last));
    while let Some((took, from, to, before, until)) = heap.pop() {
        if to - from == 1 {
            return Ok((took, to));
        }
        let middle = (from + to) / 2;
        let then = after(middle)?;
        heap.push((then - before, from, middle, before, then));
        heap.push((until - then, middle, to, then, until));
    }
    Ok((0, 0))
}
