//! What `spanprof` and `spanprof_large` compute, stated as a plain program: nothing of it is proved. `docs/MODEL.md`
//! defines what it computes, `docs/FORMATS.md` what it reads and prints, and `checks/agree/reference.py` compares it
//! with the proved programs.
//!
//! A text goes through these modules: `tokens`, `grammar` and `read` make a `program`, `cut` its segments,
//! `siblings` and `graph` the kept edges. `reports`, `certificate`, `replay`, `changes`, `account`, `places` and
//! `relaxation` answer.

pub mod account;
pub mod analysis;
pub mod certificate;
mod changes;
pub mod commands;
pub mod cut;
mod devices;
pub mod documents;
mod grammar;
pub mod graph;
pub mod greedy;
pub mod growth;
pub mod limits;
pub mod memory;
mod meter;
mod idle;
mod places;
pub mod program;
pub mod read;
pub mod refusal;
mod relation;
mod relaxation;
mod replay;
pub mod reports;
mod run;
mod siblings;
pub mod times;
mod tokens;
mod words;

use devices::Devices;
use refusal::Refusal;
use std::process::ExitCode;

/// Answers the arguments, writes the answer or the line of an error, and ends with its status.
pub fn run(answer: fn(&[String], &mut Devices) -> Result<Vec<u8>, Refusal>) -> ExitCode {
    let mut devices = Devices::new();
    let words: Result<Vec<String>, _> = std::env::args_os().skip(1).map(|word| word.into_string()).collect();
    let answered = words.map_err(|_| Refusal::WrongWords).and_then(|words| answer(&words, &mut devices));
    let (text, status) = match answered {
        Ok(text) => (text, 0),
        Err(refusal) => (format!("error: {refusal}\n").into_bytes(), refusal.status()),
    };
    ExitCode::from(if devices.write(&text).is_ok() { status } else { 3 })
}
