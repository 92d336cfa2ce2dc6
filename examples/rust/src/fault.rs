//! Why there is no answer.
use crate::calls::{Ended, Outcome};
use std::error::Error;
use std::fmt;

/// Why nothing is picked.
#[derive(Clone, Debug, PartialEq, Eq)]
pub enum PickError {
    /// There is no solution, for reasons like these.
    NoSolution { reasons: Vec<String> },
    /// The search gave up: why.
    GaveUp { why: String },
    /// This line isn't in the format.
    Unreadable { line: u64 },
}

impl PickError {
    /// What an answer of such an outcome says.
    pub(crate) fn of(outcome: Outcome, answer: &[u8]) -> Self {
        let text = String::from_utf8_lossy(answer);
        let lines = text.lines().filter(|line| *line != "request:");
        match outcome {
            Outcome::NoSolution => PickError::NoSolution {
                reasons: lines.skip(1).map(String::from).collect(),
            },
            Outcome::Unreadable => PickError::Unreadable {
                line: number_in(&text),
            },
            Outcome::Picked | Outcome::GaveUp => PickError::GaveUp {
                why: lines.collect::<Vec<_>>().join("\n"),
            },
        }
    }
}

impl fmt::Display for PickError {
    fn fmt(&self, f: &mut fmt::Formatter<'_>) -> fmt::Result {
        match self {
            PickError::NoSolution { reasons } => {
                write!(f, "there is no solution")?;
                reasons
                    .iter()
                    .try_for_each(|reason| write!(f, "\n{reason}"))
            }
            PickError::GaveUp { why } if why.is_empty() => write!(f, "gave up: out of memory"),
            PickError::GaveUp { why } => write!(f, "{why}"),
            PickError::Unreadable { line } => write!(f, "line {line} is unreadable"),
        }
    }
}

impl Error for PickError {}

/// Why a script wasn't obeyed to its end. The transcript is what was answered before.
#[derive(Clone, Debug, PartialEq, Eq)]
pub enum ScriptError {
    /// This line isn't in the format.
    Unreadable { line: u64, transcript: String },
    /// Memory was refused.
    NoMemory { transcript: String },
}

impl ScriptError {
    /// The transcript, unless the script ended early.
    pub(crate) fn check(ended: Ended, mut transcript: String) -> Result<String, Self> {
        match ended {
            Ended::Whole => Ok(transcript),
            Ended::NoMemory => Err(ScriptError::NoMemory { transcript }),
            Ended::Unreadable => {
                let before = transcript.trim_end().rfind('\n').map_or(0, |end| end + 1);
                let line = number_in(&transcript[before..]);
                transcript.truncate(before);
                Err(ScriptError::Unreadable { line, transcript })
            }
        }
    }
}

impl fmt::Display for ScriptError {
    fn fmt(&self, f: &mut fmt::Formatter<'_>) -> fmt::Result {
        match self {
            ScriptError::Unreadable { line, .. } => write!(f, "line {line} is unreadable"),
            ScriptError::NoMemory { .. } => write!(f, "out of memory"),
        }
    }
}

impl Error for ScriptError {}

/// The number in `line 7 unreadable`.
fn number_in(text: &str) -> u64 {
    let number = text
        .split_whitespace()
        .nth(1)
        .and_then(|word| word.parse().ok());
    number.unwrap_or(0)
}
