//! At which segment of a run the time of idle threads counts: where segments are ready, at the one that has been so
//! longest; where none is, at the one that has run longest. Of several it is the smallest.

use crate::account::sorted;
use crate::growth::{filled, listed};
use crate::refusal::Refusal;
use crate::times::Times;

/// By segment.
pub struct Idle {
    pub delayed: Vec<u64>,
    pub starved: Vec<u64>,
}

/// Segments in the order in which they come, each from one moment on, before another.
struct Line {
    spans: Vec<(u64, usize, u64)>,
    at: usize,
}

impl Line {
    fn of(spans: impl ExactSizeIterator<Item = (u64, usize, u64)>) -> Result<Line, Refusal> {
        let mut spans = listed(spans)?;
        spans.sort_unstable();
        Ok(Line { spans, at: 0 })
    }

    /// Of those around a moment, no less than the last one asked for, the one that came first.
    fn first(&mut self, now: u64) -> Option<usize> {
        while self.spans.get(self.at).is_some_and(|span| span.2 <= now) {
            self.at += 1;
        }
        self.spans.get(self.at).filter(|span| span.0 <= now).map(|span| span.1)
    }
}

pub fn idle_by_segment(readies: &[u64], times: &Times) -> Result<Idle, Refusal> {
    let ran = &times.ran;
    let mut waiting = Line::of(readies.iter().enumerate().map(|(segment, ready)| (*ready, segment, ran[segment].begin)))?;
    let mut running = Line::of(ran.iter().enumerate().map(|(segment, ran)| (ran.begin, segment, ran.end)))?;
    let begins = sorted(listed(ran.iter().map(|ran| ran.begin))?);
    let ends = sorted(listed(ran.iter().map(|ran| ran.end))?);
    let moments = sorted([readies, &begins, &ends].concat());
    let mut idle = Idle { delayed: filled(0, ran.len())?, starved: filled(0, ran.len())? };
    for pair in moments.windows(2).filter(|pair| begins[0] <= pair[0] && pair[0] < pair[1]) {
        let passed = |moments: &[u64]| moments.partition_point(|moment| *moment <= pair[0]) as u64;
        let time = (u64::from(times.threads) + passed(&ends) - passed(&begins)) * (pair[1] - pair[0]);
        if let Some(segment) = waiting.first(pair[0]) {
            idle.delayed[segment] += time;
        } else if let Some(segment) = running.first(pair[0]) {
            idle.starved[segment] += time;
        }
    }
    Ok(idle)
}
