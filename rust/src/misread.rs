//! What can be wrong with a text job.
use crate::Refusal;
use std::error::Error;
use std::fmt;

/// The first thing that is wrong with a text job. Both slices are as lent.
#[derive(Clone, Copy, Debug, PartialEq, Eq)]
pub struct Misread {
    /// The line, counted from 1.
    pub line: usize,
    /// What is wrong there.
    pub cause: Cause,
}

/// What is wrong at a place of a text job.
#[derive(Clone, Copy, Debug, PartialEq, Eq)]
#[non_exhaustive]
pub enum Cause {
    /// A word is no decimal number.
    NotNumber,
    /// A number does not fit 32 bits.
    TooLarge,
    /// The text ends before the job's last number.
    EndsEarly,
    /// A word stands after the job's last number.
    TooMany,
    /// A number is refused.
    Refused(Refusal),
}

impl Cause {
    /// The cause of a status that is not 0.
    pub(crate) fn of(status: u32) -> Cause {
        match status {
            257 => Cause::NotNumber,
            258 => Cause::TooLarge,
            259 => Cause::EndsEarly,
            260 => Cause::TooMany,
            number => Cause::Refused(Refusal::from_number(number).expect("a status of the engine")),
        }
    }
}

impl fmt::Display for Misread {
    fn fmt(&self, f: &mut fmt::Formatter<'_>) -> fmt::Result {
        write!(f, "line {}: ", self.line)?;
        match self.cause {
            Cause::NotNumber => write!(f, "this word is no number"),
            Cause::TooLarge => write!(f, "this number does not fit 32 bits"),
            Cause::EndsEarly => write!(f, "the text ends too early"),
            Cause::TooMany => write!(f, "there are more numbers than the job has"),
            Cause::Refused(refusal) => write!(f, "{}", refusal),
        }
    }
}

impl Error for Misread {}
