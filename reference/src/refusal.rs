//! Why there is no answer: what stands behind `error: `, and the exit status.

use std::fmt;

#[derive(Clone, Debug, PartialEq, Eq)]
pub enum Refusal {
    WrongWords,
    InputTooLong,
    ReadFault,
    OutOfMemory,
    /// What is wrong with a line of the input, counted from 1.
    Line(usize, &'static str),
    Kind(&'static str),
    /// What is wrong with a segment, or between two.
    Segment(&'static str, u32),
    Pair(&'static str, u32, u32),
    Other(String),
}

/// A refusal of this kind.
pub fn refused(kind: &'static str) -> Refusal {
    Refusal::Kind(kind)
}

/// Goes on where this holds.
pub fn ensure(holds: bool, or: impl FnOnce() -> Refusal) -> Result<(), Refusal> {
    if holds { Ok(()) } else { Err(or()) }
}

pub fn bad_form() -> Refusal {
    refused("BadForm")
}

impl Refusal {
    pub fn status(&self) -> u8 {
        match self {
            Refusal::WrongWords => 2,
            Refusal::ReadFault | Refusal::OutOfMemory => 3,
            _ => 1,
        }
    }
}

impl fmt::Display for Refusal {
    fn fmt(&self, out: &mut fmt::Formatter) -> fmt::Result {
        match self {
            Refusal::WrongWords => write!(out, "wrong words"),
            Refusal::InputTooLong => write!(out, "input too long"),
            Refusal::ReadFault => write!(out, "read fault"),
            Refusal::OutOfMemory => write!(out, "out of memory"),
            Refusal::Line(line, what) => write!(out, "line {line}: {what}"),
            Refusal::Kind(kind) => write!(out, "{kind}"),
            Refusal::Segment(kind, segment) => write!(out, "{kind} {segment}"),
            Refusal::Pair(kind, one, other) => write!(out, "{kind} {one} {other}"),
            Refusal::Other(why) => write!(out, "{why}"),
        }
    }
}

/// What is printed, or why there is no answer.
#[cfg(test)]
pub fn printed(answer: Result<Vec<u8>, Refusal>) -> String {
    answer.map_or_else(|refusal| refusal.to_string(), |text| String::from_utf8_lossy(&text).into_owned())
}
