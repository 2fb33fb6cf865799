//! The tokens of a text, and what is wrong with one by itself.

use crate::limits::MOST_WORD_BYTES;
use crate::refusal::{ensure, Refusal};

#[derive(Clone, Copy, Debug, PartialEq, Eq)]
pub enum Version {
    One,
    Two,
}

#[derive(Clone, Copy)]
pub struct Token<'a> {
    pub text: &'a [u8],
    pub line: usize,
}

/// Goes through the tokens from left to right.
pub struct Scanner<'a> {
    text: &'a [u8],
    version: Version,
    at: usize,
    /// The line of what comes next; at the end of the text that of the end.
    pub line: usize,
    spent: usize,
    most: usize,
}

fn is_word_byte(byte: u8) -> bool {
    byte.is_ascii_alphanumeric() || byte == b'_'
}

pub fn is_blank(byte: u8) -> bool {
    b" \t\r\n".contains(&byte)
}

/// The value of digits, or the greatest number where it is greater.
pub fn value_of(digits: &[u8]) -> u64 {
    digits.iter().fold(0, |value: u64, digit| value.saturating_mul(10).saturating_add(u64::from(digit - b'0')))
}

impl Token<'_> {
    pub fn is_number(&self) -> bool {
        self.text[0].is_ascii_digit()
    }

    pub fn is_word(&self) -> bool {
        is_word_byte(self.text[0]) && !self.is_number()
    }

    pub fn value(&self) -> u64 {
        value_of(self.text)
    }

    pub fn fault(&self, kind: &'static str) -> Refusal {
        Refusal::Line(self.line, kind)
    }
}

impl<'a> Scanner<'a> {
    /// In a text of this version. The tokens have at most so many bytes together.
    pub fn new(text: &'a [u8], version: Version, most: usize) -> Scanner<'a> {
        Scanner { text, version, at: 0, line: 1, spent: 0, most }
    }

    fn skip_gap(&mut self) {
        while let Some(byte) = self.text.get(self.at) {
            match byte {
                b'#' => {
                    let rest = &self.text[self.at..];
                    self.at += rest.iter().position(|byte| *byte == b'\n').unwrap_or(rest.len());
                    continue;
                }
                b'\n' => self.line += 1,
                byte if is_blank(*byte) => {}
                _ => return,
            }
            self.at += 1;
        }
    }

    fn is_sign(&self, byte: u8) -> bool {
        b"(){}:,".contains(&byte) || self.version == Version::Two && b"[]+-".contains(&byte)
    }

    /// The next token, if there is one.
    pub fn next(&mut self) -> Result<Option<Token<'a>>, Refusal> {
        self.skip_gap();
        let rest = &self.text[self.at..];
        if rest.is_empty() {
            return Ok(None);
        }
        let run = rest.iter().position(|byte| !is_word_byte(*byte)).unwrap_or(rest.len());
        let token = Token { text: &rest[..run.max(1)], line: self.line };
        let is_digits = token.text.iter().all(u8::is_ascii_digit);
        ensure(run > 0 || self.is_sign(rest[0]), || token.fault("BadByte"))?;
        ensure(!token.is_number() || is_digits, || token.fault("BadNumber"))?;
        ensure(!token.is_word() || run <= MOST_WORD_BYTES, || token.fault("BadWord"))?;
        self.at += token.text.len();
        self.spent += token.text.len();
        ensure(self.spent <= self.most, || token.fault("TooLong"))?;
        Ok(Some(token))
    }
}
