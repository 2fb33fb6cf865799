//! Where the time of a legal run's threads went: the sums, a row for each segment, or the run's own path.

use crate::documents::Document;
use crate::graph::Graph;
use crate::growth::listed;
use crate::refusal::{bad_form, Refusal};
use crate::times::{read_times, Times};
use std::cmp::Reverse;
use std::io::Write;

pub fn account(graph: &Graph, document: &Document, flag: Option<&str>) -> Result<Vec<u8>, Refusal> {
    let times = read_times(document.ended(), document.rest.ok_or_else(bad_form)?, graph.len())?;
    times.check(graph)?;
    Ok(match flag {
        Some("--rows") => rows(&readies(graph, &times)?, &times),
        Some("--path") => path(graph, &times),
        _ => printed(&sums(readies(graph, &times)?, &times)?, &times),
    })
}

/// How long all threads together were busy, idle while a segment was ready, idle while none was, and outside of all
/// segments.
pub struct Sums {
    pub busy: u64,
    pub delayed: u64,
    pub starved: u64,
    pub outside: u64,
}

/// When the last predecessor of each segment ends.
pub fn readies(graph: &Graph, times: &Times) -> Result<Vec<u64>, Refusal> {
    let last_end = |segment| graph.preds(segment).iter().map(|pred| times.of(*pred).end).max();
    listed(graph.segments().map(|segment| last_end(segment).unwrap_or(times.first)))
}

pub fn sorted(mut moments: Vec<u64>) -> Vec<u64> {
    moments.sort_unstable();
    moments
}

/// How long threads are idle while a segment is ready, from the first begin to the last end. Of the moments, which are
/// sorted, those that have passed are counted.
fn delayed(readies: &[u64], begins: &[u64], ends: &[u64], threads: u32) -> u64 {
    let (mut ready, mut begun, mut ended, mut sum) = (0, 0, 0, 0);
    let (mut now, last) = (begins[0], ends[ends.len() - 1]);
    while now < last {
        let pass = |moments: &[u64], count: &mut usize| {
            *count += moments[*count..].iter().take_while(|moment| **moment <= now).count();
            moments.get(*count).copied().unwrap_or(last)
        };
        let then = pass(readies, &mut ready).min(pass(begins, &mut begun)).min(pass(ends, &mut ended)).min(last);
        if begun < ready {
            sum += (u64::from(threads) - (begun - ended) as u64) * (then - now);
        }
        now = then;
    }
    sum
}

pub fn sums(readies: Vec<u64>, times: &Times) -> Result<Sums, Refusal> {
    let begins = sorted(listed(times.ran.iter().map(|ran| ran.begin))?);
    let ends = sorted(listed(times.ran.iter().map(|ran| ran.end))?);
    let (threads, elapsed) = (u64::from(times.threads), times.last - times.first);
    let busy: u64 = times.ran.iter().map(|ran| ran.end - ran.begin).sum();
    let delayed = delayed(&sorted(readies), &begins, &ends, times.threads);
    let outside = threads * (begins[0] - times.first + times.last - ends[ends.len() - 1]);
    Ok(Sums { busy, delayed, starved: threads * elapsed - busy - delayed - outside, outside })
}

fn printed(sums: &Sums, times: &Times) -> Vec<u8> {
    let run = [("threads", u64::from(times.threads)), ("elapsed", times.last - times.first)];
    let idle = [("delayed", sums.delayed), ("starved", sums.starved), ("outside", sums.outside)];
    let lines = run.into_iter().chain([("busy", sums.busy)]).chain(idle);
    lines.flat_map(|(name, value)| format!("{name} {value}\n").into_bytes()).collect()
}

fn rows(readies: &[u64], times: &Times) -> Vec<u8> {
    let mut text = b"segment,thread,ready,begin,end\n".to_vec();
    for ((segment, ready), ran) in readies.iter().enumerate().zip(&times.ran) {
        writeln!(text, "{segment},{},{ready},{},{}", ran.thread, ran.begin, ran.end).expect("memory takes it");
    }
    text
}

/// Each member's predecessor is the one that ends last; of several the smallest.
fn path(graph: &Graph, times: &Times) -> Vec<u8> {
    let last_of = |segments: &mut dyn Iterator<Item = u32>| segments.max_by_key(|s| (times.of(*s).end, Reverse(*s)));
    let mut path = Vec::from_iter(last_of(&mut graph.segments()));
    while let Some(before) = last_of(&mut graph.preds(path[path.len() - 1]).iter().copied()) {
        path.push(before);
    }
    let mut text = b"segment,wait,duration\n".to_vec();
    let mut free = times.of(path[path.len() - 1]).begin;
    for member in path.into_iter().rev() {
        let ran = times.of(member);
        writeln!(text, "{member},{},{}", ran.begin - free, ran.end - ran.begin).expect("memory takes it");
        free = ran.end;
    }
    text
}

#[cfg(test)]
mod tests {
    use super::account;
    use crate::cut::Table;
    use crate::documents::Document;
    use crate::graph::Graph;
    use crate::limits::ANY_SIZE;
    use crate::read::read;
    use crate::refusal::printed;

    fn account_of(times: &str, flag: Option<&str>) -> String {
        let text = format!("omptasks 1\nwork 5 task {{ work 3 }} work 2 taskwait work 1\n---\n{times}");
        let document = Document::split(text.as_bytes());
        let program = read(document.program, &ANY_SIZE).unwrap_or_else(|fault| panic!("{fault}"));
        let graph = Table::of(&program).and_then(|table| Graph::of(&program, &table));
        printed(graph.and_then(|graph| account(&graph, &document, flag)))
    }

    const TIMES: &str = "times 2 0 14\n0 0 0 5\n1 0 6 9\n2 0 9 11\n3 1 12 13\n";

    #[test]
    fn the_run_of_the_model() {
        let sums = "threads 2\nelapsed 14\nbusy 11\ndelayed 7\nstarved 8\noutside 2\n";
        assert_eq!(account_of(TIMES, None), sums);
        let rows = "segment,thread,ready,begin,end\n0,0,0,0,5\n1,0,5,6,9\n2,0,5,9,11\n3,1,11,12,13\n";
        assert_eq!(account_of(TIMES, Some("--rows")), rows);
        assert_eq!(account_of(TIMES, Some("--path")), "segment,wait,duration\n0,0,5\n2,4,2\n3,1,1\n");
    }

    #[test]
    fn refused_times() {
        let rows = [
            ("", "", "line 4: BadForm"),
            ("times 2 0 14\n", "", "line 4: BadForm"),
            ("0 0 0 5\n", "0 0 0 +5\n", "line 5: BadForm"),
            ("1 0 6 9", "4 0 6 9", "line 6: UnknownSegment"),
            ("1 0 6 9", "0 0 6 9", "line 6: TimedTwice"),
            ("1 0 6 9\n", "", "NotTimed 1"),
            ("times 2", "times 0", "ThreadCount"),
            ("0 14", "15 14", "Moments"),
            ("3 1 12", "3 2 12", "NoThread 3"),
            ("12 13", "12 11", "EndsEarly 3"),
            ("12 13", "12 15", "OutOfTime 3"),
            ("1 0 6", "1 1 4", "TooSoon 1 0"),
            ("2 0 9", "2 0 8", "NotApart 2"),
        ];
        for (old, new, wanted) in rows {
            let times = if old.is_empty() { String::new() } else { TIMES.replacen(old, new, 1) };
            assert_eq!(account_of(&times, None), wanted, "{old} {new}");
        }
    }
}
