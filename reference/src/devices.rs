//! Standard input and output. What is interrupted is tried again, 1,000 times in all. A device that is closed is no
//! failure here: Rust has opened /dev/null in its place.

use crate::limits::Limits;
use crate::refusal::Refusal;
use std::fs::File;
use std::io::{self, ErrorKind, Read, Write};
use std::os::unix::io::AsFd;

pub struct Devices {
    retries: u32,
}

/// The device itself, without a buffer between.
fn device(handle: impl AsFd) -> io::Result<File> {
    handle.as_fd().try_clone_to_owned().map(File::from)
}

impl Devices {
    pub fn new() -> Devices {
        Devices { retries: 1_000 }
    }

    /// Does it again while it is interrupted.
    fn again<T>(&mut self, mut call: impl FnMut() -> io::Result<T>) -> io::Result<T> {
        loop {
            match call() {
                Err(error) if error.kind() == ErrorKind::Interrupted && self.retries > 0 => self.retries -= 1,
                done => return done,
            }
        }
    }

    /// Reads to the end, or to the piece with which there is too much: at most one byte more than there may be.
    pub fn read(&mut self, limits: &Limits) -> Result<Vec<u8>, Refusal> {
        let mut input = device(io::stdin()).map_err(|_| Refusal::ReadFault)?;
        let (mut text, mut line) = (Vec::new(), 0);
        let mut piece = [0; 65_536];
        loop {
            let most = piece.len().min(limits.input - text.len() + 1);
            let read = self.again(|| input.read(&mut piece[..most])).map_err(|_| Refusal::ReadFault)?;
            if read == 0 {
                return Ok(text);
            }
            text.extend_from_slice(&piece[..read]);
            for part in piece[..read].split_inclusive(|byte| *byte == b'\n') {
                let ends = part.ends_with(b"\n");
                line += part.len() - usize::from(ends);
                if text.len() > limits.input || line > limits.line {
                    return Err(Refusal::InputTooLong);
                }
                line = if ends { 0 } else { line };
            }
        }
    }

    pub fn write(&mut self, mut text: &[u8]) -> io::Result<()> {
        let mut output = device(io::stdout())?;
        while !text.is_empty() {
            let written = self.again(|| output.write(text))?;
            if written == 0 {
                return Err(ErrorKind::WriteZero.into());
            }
            text = &text[written..];
        }
        output.flush()
    }
}
