//! The number of a refusal, and its place.

use reference::refusal::Refusal;

/// Where a refusal lies; 0 for what there is none of.
#[repr(C)]
#[derive(Debug, Default, PartialEq, Eq)]
pub struct Place {
    pub line: u64,
    pub segment: u32,
    pub other: u32,
}

const OUT_OF_MEMORY: u32 = 13;

/// By their numbers, from 1 on.
const KINDS: [&str; 30] = [
    "TooLong", "BadHeader", "BadByte", "BadWord", "BadNumber", "Unclosed", "Unopened", "TooDeep", "TooManyTasks",
    "TooManySegments", "TooManyItems", "WorkTooLarge", "OutOfMemory", "TooManyTurns", "ThreadCount", "CostCount",
    "CostsTooLarge", "WrongLength", "Moments", "NoThread", "EndsEarly", "OutOfTime", "TooSoon", "NotApart", "BadForm",
    "WrongCount", "Broken", "EndWrong", "ChainStep", "ChainSum",
];

fn number_of(kind: &str) -> u32 {
    (1..).zip(KINDS).find(|(_, one)| *one == kind).map_or(OUT_OF_MEMORY, |(number, _)| number)
}

pub fn numbered(why: &Refusal) -> (u32, Place) {
    let nowhere = Place::default();
    match *why {
        Refusal::Line(line, kind) => (number_of(kind), Place { line: line as u64, ..nowhere }),
        Refusal::Kind(kind) => (number_of(kind), nowhere),
        Refusal::Segment(kind, segment) => (number_of(kind), Place { segment, ..nowhere }),
        Refusal::Pair(kind, segment, other) => (number_of(kind), Place { segment, other, ..nowhere }),
        _ => (OUT_OF_MEMORY, nowhere),
    }
}
