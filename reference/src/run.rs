//! A run of the mixing kernel in the order of the segments' numbers. What it records is what every run records.

use crate::graph::Graph;
use crate::reports::preds_line;

/// The most turns that the kernel makes, whatever the cost.
const MOST_TURNS: u64 = 4096;

fn mixed(segment: u64, cost: u64, input: u64) -> u64 {
    (0..cost.min(MOST_TURNS)).fold(segment.wrapping_add(input), |value, _| value.wrapping_mul(5).wrapping_add(1))
}

/// The value of each segment, computed on the sum of its predecessors' values.
fn values(graph: &Graph) -> Vec<u64> {
    let mut values = Vec::with_capacity(graph.len());
    for number in graph.segments() {
        let input = graph.preds(number).iter().map(|pred| values[*pred as usize]).fold(0, u64::wrapping_add);
        values.push(mixed(u64::from(number), graph.costs[number as usize], input));
    }
    values
}

/// The text of `run`.
pub fn run(graph: &Graph) -> Vec<u8> {
    let digest = values(graph).into_iter().fold(0, u64::wrapping_add);
    let mut text = format!("segments {}\nedges {}\ndigest {digest}\n", graph.len(), graph.edges()).into_bytes();
    graph.segments().for_each(|segment| preds_line(graph, segment, &mut text));
    text
}
