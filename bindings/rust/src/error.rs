use core::fmt;

/// Why a call did nothing; the discriminants are the numbers of SPEC, "Refusals".
///
/// ```
/// use bowujita::{Error, Session};
/// let e = Session::new().rewind().unwrap_err();
/// assert_eq!(e, Error::NoJob);
/// assert_eq!(e.number(), 9);
/// assert_eq!(e.to_string(), "refused 9: scale, A and B are not all there; of trays: none is taken");
/// ```
#[derive(Clone, Copy, Debug, PartialEq, Eq, Hash)]
#[repr(u8)]
#[non_exhaustive]
pub enum Error {
    NoKind = 1,
    UnknownKind = 2,
    Short = 3,
    OutOfRange = 4,
    NotPositive = 5,
    OddParity = 6,
    NotSpecial = 7,
    OutOfTurn = 8,
    NoJob = 9,
    AfterEnd = 10,
    NoDirection = 11,
    NotUnitary = 12,
    NoRoom = 13,
    NoPattern = 14,
    NotALetter = 15,
    Form = 16,
    NotALine = 17,
    NotATray = 18,
    NoReader = 19,
}

use Error::*;

const ALL: [(Error, &str); 19] = [
    (NoKind, "there is no byte"),
    (UnknownKind, "the kind is none of those that are read here"),
    (Short, "the body is cut short"),
    (OutOfRange, "a field, a bound or a number is out of its range"),
    (NotPositive, "an ellipse has P·R − Q² below 1"),
    (OddParity, "a parity sum of an operator is odd"),
    (NotSpecial, "an operator with even parity sums is not special"),
    (OutOfTurn, "a known kind stands out of its turn"),
    (NoJob, "scale, A and B are not all there; of trays: none is taken"),
    (AfterEnd, "the end was reported, and no rewind or clearing came since"),
    (NoDirection, "a slice has zx = zy = 0"),
    (NotUnitary, "u and t do not solve the equation of a first column"),
    (NoRoom, "a word, a text or a sheet is longer than its slice"),
    (NoPattern, "there is no pattern up to the job's scale"),
    (NotALetter, "a byte of a word is not one of the four letters"),
    (Form, "no byte of A, a ninth A, or bytes behind B"),
    (NotALine, "a line of a text is not one of the three, or is not closed"),
    (NotATray, "no word, a last word that is not closed, or a ninth"),
    (NoReader, "the reader is neither 1 nor 2"),
];

impl Error {
    /// The number of SPEC, "Refusals".
    pub fn number(self) -> u8 {
        self as u8
    }

    /// What is wrong.
    pub fn sentence(self) -> &'static str {
        ALL[self.number() as usize - 1].1
    }

    /// 0 is no refusal.
    pub(crate) fn check(number: u8) -> Result<(), Error> {
        match number {
            0 => Ok(()),
            n => Err(ALL[n as usize - 1].0),
        }
    }
}

impl fmt::Display for Error {
    fn fmt(&self, f: &mut fmt::Formatter<'_>) -> fmt::Result {
        write!(f, "refused {}: {}", self.number(), self.sentence())
    }
}

impl core::error::Error for Error {}
