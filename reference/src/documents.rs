//! Documents: a program text, the divider, and words between blanks.

use crate::limits::MOST_NUMBER;
use crate::tokens::{is_blank, value_of};

pub struct Document<'a> {
    pub program: &'a [u8],
    /// What stands after the divider, if there is one.
    pub rest: Option<&'a [u8]>,
}

impl<'a> Document<'a> {
    pub fn split(document: &'a [u8]) -> Document<'a> {
        let mut at = 0;
        for line in document.split_inclusive(|byte| *byte == b'\n') {
            if matches!(line, b"---\n" | b"---\r\n" | b"---" | b"---\r") {
                return Document { program: &document[..at], rest: Some(&document[at + line.len()..]) };
            }
            at += line.len();
        }
        Document { program: document, rest: None }
    }

    /// The lines of the rest, each with its number in the document.
    pub fn lines(&self) -> impl Iterator<Item = (usize, &'a [u8])> {
        (self.ended() + 2..).zip(self.rest.unwrap_or_default().split(|byte| *byte == b'\n'))
    }

    /// How many lines end before the divider.
    pub fn ended(&self) -> usize {
        self.program.iter().filter(|byte| **byte == b'\n').count()
    }
}

pub fn words(text: &[u8]) -> impl Iterator<Item = &[u8]> {
    text.split(|byte| is_blank(*byte)).filter(|word| !word.is_empty())
}

/// The number that a word of digits only writes, up to the greatest.
pub fn number(word: &[u8], most: u64) -> Option<u64> {
    let is_number = !word.is_empty() && word.iter().all(u8::is_ascii_digit);
    is_number.then(|| value_of(word)).filter(|value| *value <= most)
}

/// A number of a segment, a thread or a worker.
pub fn small_number(word: &[u8]) -> Option<u32> {
    number(word, MOST_NUMBER).map(|value| value as u32)
}
