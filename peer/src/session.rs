//! The session's calls by lines of text, answered as a console does.

use std::ops::ControlFlow;

use crate::entry;
use crate::job::{decode, fields, Job, Reading, OPERATOR};
use crate::member::{Membership, Point};
use crate::root2::Root2;
use crate::walk::Walk;
use crate::words::{self, Seen, Sheet, Tariff};

/// The longest slice that a hand-out is lent.
pub const LONGEST: usize = 4_096;

/// A count for each exponent from 0 to 20.
type Counts = [u128; 21];

#[derive(Default)]
pub struct Session {
    reading: Reading,
    operator: Option<Vec<i64>>,
    total: usize,
    end: bool,
    tally: Counts,
}

pub type Answer = Result<String, u8>;

impl Session {
    /// The answer to a line, if it is a call of a session.
    pub fn answer(&mut self, line: &str) -> Option<String> {
        let words: Vec<&str> = line.split(' ').filter(|word| !word.is_empty()).collect();
        let (&command, rest) = words.split_first()?;
        let answer = match (command, rest) {
            ("read", []) => self.read(&[]),
            ("read", [hex]) => self.read(&bytes(hex)?),
            ("hand", [length]) => {
                let length: usize = length.parse().ok()?;
                self.hand_out((length <= LONGEST).then_some(length / 4)?)
            }
            ("rewind", []) => self.rewind(),
            ("clear", []) => {
                *self = Session::default();
                Ok(String::new())
            }
            ("plain", []) => self.job().map(|job| yes_or_no(!first(&job, 1).is_empty())),
            ("image", [_, _, _, _]) => {
                let numbers: Vec<i64> =
                    rest.iter().map(|word| word.parse().ok()).collect::<Option<_>>()?;
                self.image(Point { a: numbers[0], b: numbers[1], c: numbers[2], d: numbers[3] })
            }
            ("shortest", []) => self.shortest(),
            ("tally", []) => Ok(self.tally.iter().map(|count| format!(" {count}")).collect()),
            _ => stateless(command, rest)?,
        };
        Some(spoken(answer))
    }

    fn job(&self) -> Result<Job, u8> {
        self.reading.job().ok_or(9)
    }

    fn read(&mut self, bytes: &[u8]) -> Answer {
        let taken = self.reading.take(bytes)?;
        if bytes[0] == OPERATOR {
            self.operator = decode(fields(OPERATOR).ok_or(2)?, &bytes[1..taken]);
        }
        Ok(format!(" {taken}"))
    }

    fn hand_out(&mut self, space: usize) -> Answer {
        let job = self.job()?;
        if self.end {
            return Err(10);
        }
        let points = first(&job, self.total + space + 1);
        self.end = points.len() <= self.total + space;
        let handed: Vec<Point> = points.into_iter().skip(self.total).take(space).collect();
        self.total += handed.len();
        for v in &handed {
            self.tally[v.exponent(job.k) as usize] += 1;
        }
        let numbers: String = handed.iter().map(|&v| spelled(v)).collect();
        Ok(format!(" {}{}{numbers}", handed.len(), yes_or_no(self.end)))
    }

    fn rewind(&mut self) -> Answer {
        self.job()?;
        (self.total, self.end, self.tally) = (0, false, Counts::default());
        Ok(String::new())
    }

    fn image(&self, w: Point) -> Answer {
        let job = self.job()?;
        let v = match &self.operator {
            None => w,
            Some(operator) => before(operator, w),
        };
        let membership = Membership::new(&job);
        Ok(yes_or_no(within(v) && membership.holds(v) && membership.selects(v)))
    }

    fn shortest(&self) -> Answer {
        let (k, u, t) = entry::shortest(&self.job()?).ok_or(14)?;
        Ok(format!(" {k}{}{}", spelled(u), spelled(t)))
    }
}

pub fn spoken(answer: Answer) -> String {
    match answer {
        Ok(text) => format!("ok{text}"),
        Err(number) => format!("refused {number}"),
    }
}

/// The longest slice that a line or a word is written to.
const ROOMIEST: usize = 65_536;

/// The calls on words and sheets, which know no session.
fn stateless(command: &str, rest: &[&str]) -> Option<Answer> {
    Some(match command {
        "cost" => {
            let (tariff, memory, word) = priced(rest)?;
            words::cost(&tariff, &word)
                .map(|ticks| format!(" {ticks}{}", yes_or_no(ticks <= memory)))
        }
        "tray-cost" => {
            let (tariff, memory, tray) = priced(rest)?;
            words::tray_cost(&tariff, &tray).map(|ticks| yes_or_no(ticks <= memory))
        }
        "qasm" => {
            let (room, word) = roomy(rest)?;
            words::text(&word, room).map(|text| shown(hex(&text)))
        }
        "unqasm" => {
            let (room, text) = roomy(rest)?;
            words::word(&text, room).map(|word| shown(String::from_utf8_lossy(&word).into()))
        }
        "sheet" => {
            let (reader, behind) = rest.split_first()?;
            words::sheet(reader.parse().ok()?, &last(behind)?).map(|seen| match seen {
                Seen::Desk(sheet) => format!(
                    " 38 {}{}{} {}",
                    sheet.k,
                    spelled(sheet.u),
                    spelled(sheet.t),
                    sheet.ticks
                ),
                Seen::Crew(m, ticks) => format!(" 38 {m} {ticks}"),
            })
        }
        "put-sheet" => {
            let [room, k, u @ .., ticks] = rest else {
                return None;
            };
            let parts: Vec<i32> = u.iter().map(|word| word.parse().ok()).collect::<Option<_>>()?;
            let &[a, b, c, d, e, f, g, h] = parts.as_slice() else {
                return None;
            };
            let point = |[a, b, c, d]: [i32; 4]| Point {
                a: a.into(),
                b: b.into(),
                c: c.into(),
                d: d.into(),
            };
            let (u, t) = (point([a, b, c, d]), point([e, f, g, h]));
            let sheet = Sheet { k: k.parse().ok()?, u, t, ticks: ticks.parse().ok()? };
            words::put_sheet(&sheet, size(room)?).map(|bytes| shown(hex(&bytes)))
        }
        _ => return None,
    })
}

fn priced(rest: &[&str]) -> Option<(Tariff, u64, Vec<u8>)> {
    let (numbers, behind) = rest.split_at_checked(5)?;
    let numbers: Vec<u32> = numbers.iter().map(|word| word.parse().ok()).collect::<Option<_>>()?;
    let tariff = [numbers[0], numbers[1], numbers[2], numbers[3]];
    Some((tariff, numbers[4].into(), last(behind)?))
}

fn roomy(rest: &[&str]) -> Option<(usize, Vec<u8>)> {
    let (room, behind) = rest.split_first()?;
    Some((size(room)?, last(behind)?))
}

fn size(word: &str) -> Option<usize> {
    word.parse().ok().filter(|&room| room <= ROOMIEST)
}

/// The bytes of the last word, or none.
fn last(behind: &[&str]) -> Option<Vec<u8>> {
    match behind {
        [] => Some(Vec::new()),
        [digits] => bytes(digits),
        _ => None,
    }
}

fn hex(bytes: &[u8]) -> String {
    bytes.iter().map(|byte| format!("{byte:02x}")).collect()
}

/// With a space before it, if there is anything.
fn shown(text: String) -> String {
    if text.is_empty() {
        text
    } else {
        format!(" {text}")
    }
}

/// Solutions lie in this range, and membership is exact in it.
fn within(v: Point) -> bool {
    [v.a, v.b, v.c, v.d].iter().all(|z| z.abs() < 1 << 30)
}

/// The first points of a job's walk.
pub fn first(job: &Job, count: usize) -> Vec<Point> {
    let mut found = Vec::new();
    Walk::new(job).run(|v| {
        found.push(v);
        if found.len() < count {
            ControlFlow::Continue(())
        } else {
            ControlFlow::Break(())
        }
    });
    found
}

/// The point that an operator of determinant 1 or −1 sends to w: the matrix of
/// the operator has the inverse D·(M22, −M12; −M21, M11).
fn before(operator: &[i64], w: Point) -> Point {
    let point = |i: usize| Point {
        a: operator[i],
        b: operator[i + 1],
        c: operator[i + 2],
        d: operator[i + 3],
    };
    let ([m11, m21], [m12, m22]) = (point(0).parts(), point(4).parts());
    let half = |product: Root2<i128>| Root2::new(product.p / 2, product.q / 2);
    let det = half(m11 * m22 - m12 * m21).p as i64;
    let [x, y] = w.parts();
    // Each is twice √2 times √2 of a part: over √2, p + q√2 is q + (p/2)√2.
    let over = |product: Root2<i128>| (product.q as i64 * det, product.p as i64 / 2 * det);
    let (difference, d) = over(m22 * x - m12 * y);
    let (sum, b) = over(m11 * y - m21 * x);
    Point { a: (sum - difference) / 2, b, c: (sum + difference) / 2, d }
}

pub fn spelled(v: Point) -> String {
    format!(" {} {} {} {}", v.a, v.b, v.c, v.d)
}

pub fn yes_or_no(yes: bool) -> String {
    if yes { " yes" } else { " no" }.into()
}

/// The bytes of hexadecimal digits in pairs.
pub fn bytes(hex: &str) -> Option<Vec<u8>> {
    if !hex.len().is_multiple_of(2) || !hex.bytes().all(|digit| digit.is_ascii_hexdigit()) {
        return None;
    }
    (0..hex.len() / 2).map(|i| u8::from_str_radix(&hex[2 * i..2 * i + 2], 16).ok()).collect()
}
