//! The times of a run: read from the lines of a timed document, and checked to be those of a legal run.

use crate::documents::{number, small_number, words};
use crate::graph::Graph;
use crate::growth::{filled, listed};
use crate::limits::{MOST_MOMENT, MOST_THREADS, MOST_WORK};
use crate::refusal::{ensure, refused, Refusal};

/// On which thread a segment ran, and when.
#[derive(Clone, Copy)]
pub struct Ran {
    pub thread: u32,
    pub begin: u64,
    pub end: u64,
}

pub struct Times {
    pub threads: u32,
    pub first: u64,
    pub last: u64,
    /// By segment.
    pub ran: Vec<Ran>,
}

enum Line {
    Blank,
    Region { threads: u32, first: u64, last: u64 },
    Segment(u32, Ran),
}

/// What a line says, if anything.
fn read_line(line: &[u8]) -> Option<Line> {
    let words: Vec<&[u8]> = words(line).take(5).collect();
    let moment = |word| number(word, MOST_MOMENT);
    match words[..] {
        [] => Some(Line::Blank),
        [b"times", threads, first, last] => {
            Some(Line::Region { threads: small_number(threads)?, first: moment(first)?, last: moment(last)? })
        }
        [segment, thread, begin, end] => {
            let ran = Ran { thread: small_number(thread)?, begin: moment(begin)?, end: moment(end)? };
            Some(Line::Segment(small_number(segment)?, ran))
        }
        _ => None,
    }
}

/// The times of all segments, in any order, behind a divider before which so many lines end.
pub fn read_times(before: usize, rest: &[u8], segments: usize) -> Result<Times, Refusal> {
    let wrong = |line| Refusal::Line(line, "BadForm");
    let (mut region, mut ran, mut last_line) = (None, vec![None; segments], 0);
    for (number, line) in (before + 2..).zip(rest.split(|byte| *byte == b'\n')) {
        last_line = number;
        match (read_line(line).ok_or(wrong(number))?, region) {
            (Line::Blank, _) => {}
            (Line::Region { threads, first, last }, None) => region = Some((threads, first, last)),
            (Line::Segment(segment, times), Some(_)) => match ran.get_mut(segment as usize) {
                None => return Err(Refusal::Line(number, "UnknownSegment")),
                Some(Some(_)) => return Err(Refusal::Line(number, "TimedTwice")),
                Some(free) => *free = Some(times),
            },
            _ => return Err(wrong(number)),
        }
    }
    let (threads, first, last) = region.ok_or(wrong(last_line))?;
    let each = (0..).zip(ran).map(|(segment, times)| times.ok_or(Refusal::Segment("NotTimed", segment)));
    Ok(Times { threads, first, last, ran: each.collect::<Result<_, _>>()? })
}

impl Times {
    pub fn of(&self, segment: u32) -> Ran {
        self.ran[segment as usize]
    }

    /// The first reason why these are not the times of a legal run of the graph.
    pub fn check(&self, graph: &Graph) -> Result<(), Refusal> {
        ensure((1..=MOST_THREADS).contains(&self.threads), || refused("ThreadCount"))?;
        ensure(self.first <= self.last && self.last <= MOST_WORK, || refused("Moments"))?;
        ensure(self.ran.len() == graph.len(), || refused("WrongLength"))?;
        graph.segments().try_for_each(|segment| self.check_range(segment))?;
        for segment in graph.segments() {
            let is_late = |pred: &&u32| self.of(**pred).end > self.of(segment).begin;
            if let Some(pred) = graph.preds(segment).iter().find(is_late) {
                return Err(Refusal::Pair("TooSoon", segment, *pred));
            }
        }
        self.check_apart()
    }

    fn check_range(&self, segment: u32) -> Result<(), Refusal> {
        let ran = self.of(segment);
        ensure(ran.thread < self.threads, || Refusal::Segment("NoThread", segment))?;
        ensure(ran.begin <= ran.end, || Refusal::Segment("EndsEarly", segment))?;
        ensure(self.first <= ran.begin && ran.end <= self.last, || Refusal::Segment("OutOfTime", segment))
    }

    /// No two segments run on one thread at one moment.
    fn check_apart(&self) -> Result<(), Refusal> {
        let mut order = listed(0..self.ran.len() as u32)?;
        order.sort_unstable_by_key(|segment| (self.of(*segment).begin, *segment));
        let mut busy_until = filled(0, self.threads as usize)?;
        for segment in order {
            let ran = self.of(segment);
            let until = &mut busy_until[ran.thread as usize];
            if ran.begin < ran.end {
                ensure(*until <= ran.begin, || Refusal::Segment("NotApart", segment))?;
                *until = ran.end;
            }
        }
        Ok(())
    }
}
