//! The refusals.

use std::fmt;

use crate::hosted::Question;
use crate::raw;
use crate::refusals;

/// Why a call did nothing: the library refuses it, by a number of `docs/refusals.md`, or a task asks
/// for a helper that isn't there. A variant tells where a refusal stands.
///
/// Numbers may come with new versions, and so may variants: take an unknown one for a refusal.
///
/// ```
/// use telgovan::{assemble, Error, Program};
///
/// let code = assemble("ldxb r0, [r1+9]\nexit")?;
/// let error = Program::verify(9, &code).expect_err("it reads a tenth byte");
/// assert_eq!(error, Error::AtSlot { number: 33, slot: 0 });
/// assert_eq!((error.number(), error.slot(), error.line()), (Some(33), Some(0), None));
/// assert!(error.to_string().starts_with("refused 33 at slot 0: "));
/// println!("{}, so {}", error.text(), error.advice());
/// # Ok::<(), Error>(())
/// ```
#[derive(Clone, Copy, Debug, PartialEq, Eq)]
#[non_exhaustive]
pub enum Error {
    /// A refusal that stands at no place.
    Refused {
        /// The number of the refusal, 1 to 255.
        number: u8,
    },
    /// A program is refused.
    AtSlot {
        /// The number of the refusal: 4 to 7, 21 to 25 or 31 to 37.
        number: u8,
        /// The slot where it stands, counted from 0.
        slot: u64,
    },
    /// A source text is refused.
    AtLine {
        /// The number of the refusal, 11 to 13.
        number: u8,
        /// The line where it stands, counted from 1.
        line: u64,
    },
    /// A job is refused for one of its programs.
    InProgram {
        /// The number of the refusal: 1 to 7, 21 to 25, 31 to 38 or 43.
        number: u8,
        /// The program's place in the job, counted from 0.
        program: u32,
        /// The slot where it stands in that, if it stands at one and the call tells it.
        slot: Option<u32>,
    },
    /// A task asks, and its helper isn't registered or has no answer. The question stays asked.
    Unanswered(
        /// The question, which waits.
        Question,
    ),
}

impl Error {
    /// The refusal of a status that isn't 0.
    pub(crate) fn of(status: u32) -> Error {
        Error::Refused {
            number: number_of(status),
        }
    }

    /// The refusal of a program.
    pub(crate) fn at_slot(status: u32, has_slot: bool, slot: u64) -> Error {
        if has_slot {
            let number = number_of(status);
            Error::AtSlot { number, slot }
        } else {
            Error::of(status)
        }
    }

    /// The refusal of a source text.
    pub(crate) fn at_line(status: u32, has_line: bool, line: u64) -> Error {
        if has_line {
            let number = number_of(status);
            Error::AtLine { number, line }
        } else {
            Error::of(status)
        }
    }

    /// The refusal of a job.
    pub(crate) fn of_job(report: &raw::Report) -> Error {
        if report.has_program {
            Error::InProgram {
                number: number_of(report.status),
                program: report.program,
                slot: report.has_slot.then_some(report.slot),
            }
        } else {
            Error::of(report.status)
        }
    }

    /// The number of the refusal, 1 to 255; none where a question stays unanswered.
    pub fn number(&self) -> Option<u8> {
        match *self {
            Error::Refused { number }
            | Error::AtSlot { number, .. }
            | Error::AtLine { number, .. }
            | Error::InProgram { number, .. } => Some(number),
            Error::Unanswered(_) => None,
        }
    }

    /// The slot where it stands in a program, counted from 0, if it stands at one.
    pub fn slot(&self) -> Option<u64> {
        match *self {
            Error::AtSlot { slot, .. } => Some(slot),
            Error::InProgram { slot, .. } => slot.map(u64::from),
            _ => None,
        }
    }

    /// The line where it stands in a source text, counted from 1, if it stands at one.
    pub fn line(&self) -> Option<u64> {
        match *self {
            Error::AtLine { line, .. } => Some(line),
            _ => None,
        }
    }

    /// The place of the program of a job that it is about, counted from 0, if it is about one.
    pub fn program(&self) -> Option<u32> {
        match *self {
            Error::InProgram { program, .. } => Some(program),
            _ => None,
        }
    }

    /// The fault, in a few words.
    pub fn text(&self) -> &'static str {
        self.words().0
    }

    /// A way to mend it.
    pub fn advice(&self) -> &'static str {
        self.words().1
    }

    fn words(&self) -> (&'static str, &'static str) {
        match self.number() {
            Some(number) => refusals::words(number).unwrap_or((
                "an unknown refusal",
                "see docs/refusals.md of the library's version",
            )),
            None => (
                "the helper that is asked isn't registered, or has no answer",
                "register it and run the task on, or go on with the answer",
            ),
        }
    }
}

impl fmt::Display for Error {
    fn fmt(&self, f: &mut fmt::Formatter<'_>) -> fmt::Result {
        match self {
            Error::Unanswered(question) => write!(f, "helper {}", question.helper)?,
            _ => write!(f, "refused {}", self.number().unwrap_or_default())?,
        }
        if let Some(slot) = self.slot() {
            write!(f, " at slot {slot}")?;
        }
        if let Some(line) = self.line() {
            write!(f, " in line {line}")?;
        }
        if let Some(program) = self.program() {
            write!(f, " of program {program}")?;
        }
        write!(f, ": {}", self.text())
    }
}

impl std::error::Error for Error {}

/// Nothing, or the refusal of a status.
pub(crate) fn passed(status: u32) -> Result<(), Error> {
    match status {
        0 => Ok(()),
        status => Err(Error::of(status)),
    }
}

/// A status as a number: each of the library's has 8 bits.
fn number_of(status: u32) -> u8 {
    u8::try_from(status).unwrap_or(u8::MAX)
}
