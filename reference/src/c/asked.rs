//! What a caller hands in: a text, costs, lists of one length, the times of a run.

use reference::cut::Table;
use reference::graph::Graph;
use reference::growth::listed;
use reference::limits::{Limits, ANY_SIZE, COMMANDS, MOST_THREADS, MOST_WORK};
use reference::program::Program;
use reference::read::read;
use reference::refusal::{ensure, refused, Refusal};
use reference::times::{Ran, Times};

/// A text, and whether it may be of any size.
#[derive(Clone, Copy)]
pub struct Text<'a> {
    pub bytes: &'a [u8],
    pub any_size: bool,
}

impl Text<'_> {
    /// Those of the programs; but a claim may have any number of bytes, and a text no more than a line of theirs.
    pub fn limits(&self) -> Limits {
        if self.any_size {
            Limits { text: ANY_SIZE.line, ..ANY_SIZE }
        } else {
            Limits { claim: usize::MAX, ..COMMANDS }
        }
    }

    pub fn program(&self) -> Result<Program, Refusal> {
        read(self.bytes, &self.limits())
    }

    /// Its graph, with these costs where there are any.
    pub fn graph(&self, costs: &[u64]) -> Result<Graph, Refusal> {
        let program = self.program()?;
        let mut graph = Graph::of(&program, &Table::of(&program)?)?;
        if !costs.is_empty() {
            ensure(costs.len() == graph.len(), || refused("CostCount"))?;
            ensure(is_within_limit(costs), || refused("CostsTooLarge"))?;
            graph.costs.copy_from_slice(costs);
        }
        Ok(graph)
    }
}

fn is_within_limit(costs: &[u64]) -> bool {
    costs.iter().try_fold(0, |sum: u64, cost| sum.checked_add(*cost).filter(|sum| *sum <= MOST_WORK)).is_some()
}

/// Each list has a place for each segment.
pub fn ensure_each(segments: usize, lengths: &[usize]) -> Result<(), Refusal> {
    ensure(lengths.iter().all(|length| *length == segments), || refused("WrongLength"))
}

pub fn ensure_threads(count: usize) -> Result<(), Refusal> {
    ensure((1..=MOST_THREADS as usize).contains(&count), || refused("ThreadCount"))
}

/// The times of a run; of lists of several lengths there are none, which no program has.
pub fn times_of(run: (u32, u64, u64), threads: &[u32], begins: &[u64], ends: &[u64]) -> Result<Times, Refusal> {
    let is_each = threads.len() == begins.len() && begins.len() == ends.len();
    let each = 0..if is_each { threads.len() } else { 0 };
    let ran = listed(each.map(|s| Ran { thread: threads[s], begin: begins[s], end: ends[s] }))?;
    Ok(Times { threads: run.0, first: run.1, last: run.2, ran })
}
