//! The refusals of 01 ("Refusal numbers") and 02: a number and a place. Each number stands here once, under its row of the
//! table or the words of its request.

use std::fmt;

/// The refusal numbers, each with the words "given when" of its row, or of its request.
#[derive(Clone, Copy, Debug, PartialEq, Eq, PartialOrd, Ord)]
pub enum Number {
    /// "file empty or too long; a body cut short; no end record; bytes after it"
    BrokenFile = 1,
    /// "unknown kind"
    UnknownKind = 2,
    /// "kind or hour field out of order"; W5: "a mixture of 02 and 12"
    OutOfOrder = 3,
    /// "another field outside its range"
    OutsideRange = 4,
    /// "GLN not digits, wrong check digit, not rising"; W5: "a bad BRP GLN"
    BadGln = 5,
    /// "W is 0 or too large"
    BadShareSum = 6,
    /// "missing hour"
    MissingHour = 7,
    /// "residual negative"
    NegativeResidual = 8,
    /// "residual too large"
    ResidualTooLarge = 9,
    /// "curve number too large"
    CurveNumberTooLarge = 10,
    /// "a not below b, b above H; curve of 0 or over 8,784 hours"
    BadSpan = 11,
    /// "E too large"
    ReadingTooLarge = 12,
    /// "E positive and S zero"
    NoWeight = 13,
    /// "too much periodised in an hour"
    TooMuchPeriodised = 14,
    /// "wrong count in the end record"
    WrongCount = 15,
    /// "a lent output is not of the needed length (record writer: too short)"
    WrongOutputLength = 16,
    /// W1: "no refixed series in a final run"
    NoRefixedSeries = 17,
    /// W3: "weight before plus the month's own weight exceeds the whole, or the whole is over 8,784,000,000,000"
    TooMuchWeight = 18,
    /// W6: "a difference beyond 2,000,000,001 Wh of either sign"
    DifferenceTooLarge = 19,
}

impl Number {
    /// The refusal with this number at a place. "Places count from 0".
    pub fn at(self, place: usize) -> Refusal {
        Refusal {
            number: self,
            place,
        }
    }
}

/// "A refusal returns its number and a place".
#[derive(Clone, Copy, Debug, PartialEq, Eq)]
pub struct Refusal {
    pub number: Number,
    pub place: usize,
}

impl Refusal {
    /// The refusal as one number, number + 256 x place, as a service called from C tells it (0 being acceptance).
    pub fn code(&self) -> u64 {
        self.number as u64 + 256 * self.place as u64
    }
}

/// "On refusal it prints one line, `refused N at P`." (The statement program)
impl fmt::Display for Refusal {
    fn fmt(&self, out: &mut fmt::Formatter) -> fmt::Result {
        write!(out, "refused {} at {}", self.number as u8, self.place)
    }
}
