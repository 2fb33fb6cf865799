//! Changed costs: as arguments, or as a list of lines.

use crate::analysis::earliest;
use crate::documents::{number, small_number, words, Document};
use crate::graph::Graph;
use crate::limits::MOST_WORK;
use crate::refusal::{bad_form, refused, Refusal};

/// Another cost for a segment.
#[derive(Clone, Copy, Debug, PartialEq, Eq)]
pub struct Change {
    segment: u32,
    cost: u64,
}

impl Change {
    /// What a word `SEG=COST` says.
    pub fn read(word: &[u8]) -> Option<Change> {
        let place = word.iter().position(|byte| *byte == b'=')?;
        let (segment, cost) = (&word[..place], &word[place + 1..]);
        let digits = number(cost, u64::MAX).and(std::str::from_utf8(cost).ok())?;
        Some(Change { segment: small_number(segment)?, cost: digits.parse().ok()? })
    }

    /// Makes the change, unless it is refused: why. `work` is the sum of the costs.
    fn make(&self, costs: &mut [u64], work: &mut u64) -> Result<(), &'static str> {
        let old = costs.get_mut(self.segment as usize).ok_or("UnknownSegment")?;
        if self.cost > MOST_WORK {
            return Err("CostTooLarge");
        }
        let after = *work - *old + self.cost;
        if after > MOST_WORK {
            return Err("WorkTooLarge");
        }
        (*old, *work) = (self.cost, after);
        Ok(())
    }
}

pub fn what_if(mut graph: Graph, changes: &[Change]) -> Result<Vec<u8>, Refusal> {
    let (was, mut work) = (earliest(&graph)?.1, graph.work());
    for change in changes {
        change.make(&mut graph.costs, &mut work).map_err(refused)?;
    }
    report(&graph, was)
}

/// The changes of a list, each on a line of its own.
pub fn what_if_listed(mut graph: Graph, document: &Document) -> Result<Vec<u8>, Refusal> {
    document.rest.ok_or_else(bad_form)?;
    let (was, mut work) = (earliest(&graph)?.1, graph.work());
    for (number, line) in document.lines() {
        let change = match words(line).take(2).collect::<Vec<_>>()[..] {
            [] => continue,
            [word] => Change::read(word),
            _ => None,
        };
        let change = change.ok_or(Refusal::Line(number, "BadForm"))?;
        change.make(&mut graph.costs, &mut work).map_err(|why| Refusal::Line(number, why))?;
    }
    report(&graph, was)
}

fn report(graph: &Graph, was: u64) -> Result<Vec<u8>, Refusal> {
    Ok(format!("work {}\nspan {}\nwas {was}\n", graph.work(), earliest(graph)?.1).into_bytes())
}
