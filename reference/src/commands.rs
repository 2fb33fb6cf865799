//! The commands of the two programs, from the arguments to the answer.

use crate::account::account;
use crate::certificate::{certify, check};
use crate::changes::{what_if, what_if_listed};
use crate::cut::Table;
use crate::devices::Devices;
use crate::documents::Document;
use crate::graph::Graph;
use crate::limits::{Limits, ANY_SIZE, COMMANDS, MOST_THREADS, MOST_WORKERS};
use crate::meter::Meter;
use crate::places::places;
use crate::program::Program;
use crate::read::read;
use crate::refusal::{refused, Refusal};
use crate::relaxation::relaxation;
use crate::replay::replay;
use crate::reports;
use crate::run::run;
use crate::words::{read_words, Found};

const SPANPROF: [&str; 10] = [
    "span", "show", "slack", "greedy --threads P", "curve --upto P", "whatif SEG=COST", "certify", "check",
    "run --workers P", "replay",
];

/// The first one needs no name.
const SPANPROF_LARGE: [&str; 15] = [
    " --upto P", "span", "bounds --upto P", "slack", "greedy --threads P", "curve --upto P",
    "whatif SEG=COST [--listed]", "graph", "show", "certify", "account [--rows] [--path]", "places", "replay", "check",
    "relaxation",
];

const HELP: &str = include_str!("help.txt");
const VERSION: &str = "spanprof_large 0.1.0 (reference implementation, not proved)\n";

/// The ten commands.
pub fn spanprof(words: &[String], devices: &mut Devices) -> Result<Vec<u8>, Refusal> {
    let (name, found) = read_words(&SPANPROF, words)?;
    let input = devices.read(&COMMANDS)?;
    answer(name, &found, &input, &COMMANDS)
}

/// The questions about texts of any size. What is wrong with a number of threads comes before what is read.
pub fn spanprof_large(words: &[String], devices: &mut Devices) -> Result<Vec<u8>, Refusal> {
    match words {
        [word] if ["help", "--help", "-h"].contains(&word.as_str()) => return Ok(HELP.into()),
        [word] if ["--version", "-V"].contains(&word.as_str()) => return Ok(VERSION.into()),
        _ => {}
    }
    let (name, found) = read_words(&SPANPROF_LARGE, words)?;
    if found.number.is_some() {
        threads(&found)?;
    }
    let input = devices.read(&ANY_SIZE)?;
    match (name, found.number) {
        ("" | "bounds", Some(upto)) => {
            let Meter { work, span, .. } = Meter::of(&read(&input, &ANY_SIZE)?);
            Ok(reports::bounds(work, span, upto))
        }
        ("" | "span", _) => {
            let Meter { tasks, segments, work, span, .. } = Meter::of(&read(&input, &ANY_SIZE)?);
            Ok(format!("tasks {tasks}\nsegments {segments}\nwork {work}\nspan {span}\n").into_bytes())
        }
        _ => answer(name, &found, &input, &ANY_SIZE),
    }
}

fn threads(found: &Found) -> Result<u32, Refusal> {
    found.number.filter(|threads| (1..=MOST_THREADS).contains(threads)).ok_or_else(|| refused("ThreadCount"))
}

fn answer(name: &str, found: &Found, input: &[u8], limits: &Limits) -> Result<Vec<u8>, Refusal> {
    let document = Document::split(input);
    match name {
        "check" => check(&document, limits),
        "replay" => replay(&document, limits),
        "account" => account(&graph_of(&read(document.program, limits)?)?, &document, found.flag.as_deref()),
        "relaxation" => relaxation(&document, limits),
        "places" => places(&graph_of(&read(document.program, limits)?)?, &document),
        "whatif" if found.flag.is_some() => what_if_listed(graph_of(&read(document.program, limits)?)?, &document),
        _ => answer_of(name, found, &read(input, limits)?),
    }
}

fn graph_of(program: &Program) -> Result<Graph, Refusal> {
    Graph::of(program, &Table::of(program)?)
}

fn answer_of(name: &str, found: &Found, program: &Program) -> Result<Vec<u8>, Refusal> {
    match name {
        "span" => {
            let Meter { segments, work, span, .. } = Meter::of(program);
            Ok(format!("segments {segments}\nwork {work}\nspan {span}\n").into_bytes())
        }
        "show" => Ok(program.canonical_text()),
        "greedy" => reports::greedy(&graph_of(program)?, threads(found)?),
        "curve" => reports::curve(&graph_of(program)?, threads(found)?),
        "whatif" => what_if(graph_of(program)?, &found.changes),
        "certify" => certify(program, &graph_of(program)?),
        "run" => match found.number {
            Some(1..=MOST_WORKERS) => Ok(run(&graph_of(program)?)),
            _ => Err(refused("WorkerCount")),
        },
        _ => {
            let table = Table::of(program)?;
            let rows = if name == "graph" { reports::graph } else { reports::slack };
            rows(&table, &Graph::of(program, &table)?)
        }
    }
}
