//! The earliest schedule of a graph, its span, slacks and critical path.

use crate::graph::Graph;
use crate::growth::{filled, listed, push};
use crate::refusal::Refusal;

pub struct Analysis {
    pub starts: Vec<u64>,
    pub slacks: Vec<u64>,
    pub span: u64,
    pub chain: Vec<u32>,
}

/// The earliest start of each segment, and the span.
pub fn earliest(graph: &Graph) -> Result<(Vec<u64>, u64), Refusal> {
    let (mut starts, mut ends, mut span) = (filled(0, graph.len())?, filled(0, graph.len())?, 0);
    for segment in graph.segments() {
        let start = graph.preds(segment).iter().map(|pred| ends[*pred as usize]).max().unwrap_or(0);
        let end = start + graph.costs[segment as usize];
        starts[segment as usize] = start;
        ends[segment as usize] = end;
        span = span.max(end);
    }
    Ok((starts, span))
}

/// The greatest sum of costs that follows each segment.
fn tails(graph: &Graph) -> Result<Vec<u64>, Refusal> {
    let mut tails = filled(0, graph.len())?;
    for segment in graph.segments().rev() {
        let through = tails[segment as usize] + graph.costs[segment as usize];
        for pred in graph.preds(segment) {
            tails[*pred as usize] = through.max(tails[*pred as usize]);
        }
    }
    Ok(tails)
}

/// From the smallest segment that ends last, back by the smallest predecessors that end just when the next one starts.
fn chain(graph: &Graph, starts: &[u64], span: u64) -> Result<Vec<u32>, Refusal> {
    let end = |segment: u32| starts[segment as usize] + graph.costs[segment as usize];
    let mut member = graph.segments().find(|segment| end(*segment) == span).expect("some segment ends last");
    let mut chain = filled(member, 1)?;
    while member != 0 {
        let mut preds = graph.preds(member).iter().copied();
        member = preds.find(|pred| end(*pred) == starts[member as usize]).expect("a predecessor ends just then");
        push(&mut chain, member)?;
    }
    chain.reverse();
    Ok(chain)
}

pub fn analyse(graph: &Graph) -> Result<Analysis, Refusal> {
    let (starts, span) = earliest(graph)?;
    let tails = tails(graph)?;
    let slack = |segment: usize| span - starts[segment] - graph.costs[segment] - tails[segment];
    let slacks = listed((0..graph.len()).map(slack))?;
    let chain = chain(graph, &starts, span)?;
    Ok(Analysis { starts, slacks, span, chain })
}
