//! The greedy schedule of a graph on some threads.

use crate::graph::{Graph, Lists};
use crate::growth::{enter, filled, listed, push};
use crate::refusal::Refusal;
use std::cmp::Reverse;
use std::collections::BinaryHeap;

pub struct Schedule {
    pub starts: Vec<u64>,
    /// A segment of cost 0 has no thread.
    pub threads: Vec<Option<u32>>,
    pub end: u64,
}

struct State<'a> {
    graph: &'a Graph,
    successors: &'a Lists,
    /// How many predecessors of each segment have not ended.
    left: Vec<u32>,
    ready: BinaryHeap<Reverse<u32>>,
    free: BinaryHeap<Reverse<u32>>,
    running: BinaryHeap<Reverse<(u64, u32)>>,
    /// Segments that have ended, whose successors still count them.
    ended: Vec<u32>,
    run: Schedule,
}

/// The schedule that takes ready segments and free threads in ascending order.
pub fn schedule(graph: &Graph, successors: &Lists, threads: u32) -> Result<Schedule, Refusal> {
    let mut state = State {
        graph,
        successors,
        left: listed(graph.segments().map(|segment| graph.preds(segment).len() as u32))?,
        ready: BinaryHeap::new(),
        free: listed((0..threads).map(Reverse))?.into(),
        running: BinaryHeap::new(),
        ended: Vec::new(),
        run: Schedule { starts: filled(0, graph.len())?, threads: filled(None, graph.len())?, end: 0 },
    };
    state.release(0)?;
    state.begin_ready()?;
    while let Some(Reverse((moment, _))) = state.running.peek() {
        state.run.end = *moment;
        state.end_running()?;
        state.begin_ready()?;
    }
    Ok(state.run)
}

impl State<'_> {
    /// All predecessors of a segment have ended: it is ready, or ends where it costs nothing.
    fn release(&mut self, segment: u32) -> Result<(), Refusal> {
        if self.graph.costs[segment as usize] > 0 {
            return enter(&mut self.ready, Reverse(segment));
        }
        self.run.starts[segment as usize] = self.run.end;
        push(&mut self.ended, segment)
    }

    /// Counts those that have ended, and releases the segments that waited for them alone.
    fn count_ended(&mut self) -> Result<(), Refusal> {
        while let Some(segment) = self.ended.pop() {
            for next in self.successors.of(segment) {
                self.left[*next as usize] -= 1;
                if self.left[*next as usize] == 0 {
                    self.release(*next)?;
                }
            }
        }
        Ok(())
    }

    /// Ends all segments that end at this moment.
    fn end_running(&mut self) -> Result<(), Refusal> {
        while let Some(Reverse((end, segment))) = self.running.peek().copied() {
            if end > self.run.end {
                break;
            }
            self.running.pop();
            self.free.extend(self.run.threads[segment as usize].map(Reverse));
            push(&mut self.ended, segment)?;
        }
        Ok(())
    }

    fn begin_ready(&mut self) -> Result<(), Refusal> {
        self.count_ended()?;
        while !self.ready.is_empty() && !self.free.is_empty() {
            if let (Some(Reverse(segment)), Some(Reverse(thread))) = (self.ready.pop(), self.free.pop()) {
                self.run.starts[segment as usize] = self.run.end;
                self.run.threads[segment as usize] = Some(thread);
                enter(&mut self.running, Reverse((self.run.end + self.graph.costs[segment as usize], segment)))?;
            }
        }
        Ok(())
    }
}
