//! Trays by lines of text: up to eight regions in a single walk.

use std::collections::BTreeMap;

use crate::job::{read_region, Job, Region};
use crate::member::Point;
use crate::session::{bytes, first, spelled, spoken, yes_or_no, Answer, LONGEST};

const MOST_REGIONS: usize = 8;

#[derive(Default)]
pub struct Trays {
    /// A job for each region, once a tray is taken.
    tray: Option<Vec<Job>>,
    total: usize,
    end: bool,
}

impl Trays {
    /// The answer to a line, if it is a call on trays.
    pub fn answer(&mut self, line: &str) -> Option<String> {
        let words: Vec<&str> = line.split(' ').filter(|word| !word.is_empty()).collect();
        let answer = match words[..] {
            ["tray", k, byte, a, b] => {
                self.take(k.parse().ok()?, byte.parse().ok()?, &part(a)?, &part(b)?)
            }
            ["tray-hand", length] => {
                let length: usize = length.parse().ok()?;
                self.hand_out((length <= LONGEST).then_some(length / 5)?)
            }
            ["tray-rewind"] => self.rewind(),
            ["tray-clear"] => {
                *self = Trays::default();
                Ok(String::new())
            }
            _ => return None,
        };
        Some(spoken(answer))
    }

    fn take(&mut self, k: u64, byte: u64, a: &[u8], b: &[u8]) -> Answer {
        if k > 20 || byte > 1 {
            return Err(4);
        }
        let regions = regions(a)?;
        let (second, length) = read_region(b)?;
        if length < b.len() {
            return Err(16);
        }
        let count = regions.len();
        let job = |a| Job { k: k as u32, all: byte == 1, a, b: second };
        *self = Trays { tray: Some(regions.into_iter().map(job).collect()), total: 0, end: false };
        Ok(format!(" {count}"))
    }

    fn tray(&self) -> Result<&[Job], u8> {
        self.tray.as_deref().ok_or(9)
    }

    fn hand_out(&mut self, space: usize) -> Answer {
        let jobs = self.tray()?;
        if self.end {
            return Err(10);
        }
        let points = merged(jobs, self.total + space + 1);
        self.end = points.len() <= self.total + space;
        let handed: Vec<(Point, u32)> = points.into_iter().skip(self.total).take(space).collect();
        self.total += handed.len();
        let numbers: String =
            handed.iter().map(|&(v, mask)| format!("{} {mask}", spelled(v))).collect();
        Ok(format!(" {}{}{numbers}", handed.len(), yes_or_no(self.end)))
    }

    fn rewind(&mut self) -> Answer {
        self.tray()?;
        (self.total, self.end) = (0, false);
        Ok(String::new())
    }
}

/// One to eight region records, back to back.
fn regions(a: &[u8]) -> Result<Vec<Region>, u8> {
    if a.is_empty() {
        return Err(16);
    }
    let (mut regions, mut rest) = (Vec::new(), a);
    while !rest.is_empty() {
        if regions.len() == MOST_REGIONS {
            return Err(16);
        }
        let (region, length) = read_region(rest)?;
        regions.push(region);
        rest = &rest[length..];
    }
    Ok(regions)
}

/// The first points in at least one of the jobs' walks, with 2^j for each walk
/// j that has them. Each of these is among the first of every walk that has it.
fn merged(jobs: &[Job], count: usize) -> Vec<(Point, u32)> {
    let mut masks = BTreeMap::new();
    for (j, job) in jobs.iter().enumerate() {
        for v in first(job, count) {
            *masks.entry(v).or_insert(0) |= 1 << j;
        }
    }
    masks.into_iter().take(count).collect()
}

/// A byte part: `-` has none.
fn part(hex: &str) -> Option<Vec<u8>> {
    if hex == "-" {
        return Some(Vec::new());
    }
    bytes(hex)
}
