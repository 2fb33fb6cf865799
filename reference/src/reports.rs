//! What the commands print of a graph.

use crate::analysis::{analyse, earliest};
use crate::cut::Table;
use crate::graph::Graph;
use crate::greedy::schedule;
use crate::refusal::Refusal;
use std::fmt::Display;
use std::io::Write;

fn line(text: &mut Vec<u8>, what: impl Display) {
    writeln!(text, "{what}").expect("memory takes it");
}

/// Numbers with a blank between each two.
fn listed(numbers: &[u32]) -> String {
    numbers.iter().map(u32::to_string).collect::<Vec<_>>().join(" ")
}

pub fn slack(table: &Table, graph: &Graph) -> Result<Vec<u8>, Refusal> {
    let found = analyse(graph)?;
    let mut in_chain = vec![0; graph.len()];
    found.chain.iter().for_each(|member| in_chain[*member as usize] = 1);
    let mut text = b"segment,task,cost,start,slack,chain\n".to_vec();
    for (s, segment) in table.segments.iter().enumerate() {
        let (task, cost, start, slack) = (segment.task, segment.cost, found.starts[s], found.slacks[s]);
        line(&mut text, format_args!("{s},{task},{cost},{start},{slack},{}", in_chain[s]));
    }
    Ok(text)
}

pub fn graph(table: &Table, graph: &Graph) -> Result<Vec<u8>, Refusal> {
    let mut text = b"segment,task,cost,predecessors\n".to_vec();
    for (s, segment) in (0..).zip(&table.segments) {
        line(&mut text, format_args!("{s},{},{},{}", segment.task, segment.cost, listed(graph.preds(s))));
    }
    Ok(text)
}

/// The line of a segment in what a run or a replay records.
pub fn preds_line(graph: &Graph, segment: u32, text: &mut Vec<u8>) {
    let preds = graph.preds(segment);
    let blank = if preds.is_empty() { "" } else { " " };
    line(text, format_args!("preds {segment}{blank}{}", listed(preds)));
}

pub fn greedy(graph: &Graph, threads: u32) -> Result<Vec<u8>, Refusal> {
    let run = schedule(graph, &graph.successors()?, threads)?;
    let mut text = b"segment,start,end,thread\n".to_vec();
    for s in 0..graph.len() {
        let (start, end) = (run.starts[s], run.starts[s] + graph.costs[s]);
        let thread = run.threads[s].map_or(String::new(), |thread| thread.to_string());
        line(&mut text, format_args!("{s},{start},{end},{thread}"));
    }
    Ok(text)
}

/// The lower bound of each schedule on p threads, and the upper bound of each greedy one.
pub fn bounds_on(work: u64, span: u64, p: u64) -> (u64, u64) {
    (span.max((work + p - 1) / p), (work + (p - 1) * span) / p)
}

pub fn bounds(work: u64, span: u64, upto: u32) -> Vec<u8> {
    let mut text = b"threads,least,bound\n".to_vec();
    for p in 1..=u64::from(upto) {
        let (least, bound) = bounds_on(work, span, p);
        line(&mut text, format_args!("{p},{least},{bound}"));
    }
    text
}

pub fn curve(graph: &Graph, upto: u32) -> Result<Vec<u8>, Refusal> {
    let (work, span) = (graph.work(), earliest(graph)?.1);
    let successors = graph.successors()?;
    let mut text = b"threads,end,least,bound\n".to_vec();
    for p in 1..=upto {
        let end = schedule(graph, &successors, p)?.end;
        let (least, bound) = bounds_on(work, span, u64::from(p));
        line(&mut text, format_args!("{p},{end},{least},{bound}"));
    }
    Ok(text)
}
