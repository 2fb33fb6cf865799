//! What is reported of each place of a program: how many segments stand there and their work, the same of those on the
//! critical path, and the least of all slacks. With the times of a run also how long the segments ran, and for how long
//! threads were idle because of one.

use crate::account::readies;
use crate::analysis::analyse;
use crate::documents::{number, words, Document};
use crate::graph::Graph;
use crate::growth::{filled, push};
use crate::idle::{idle_by_segment, Idle};
use crate::refusal::{bad_form, ensure, refused, Refusal};
use crate::times::read_times;
use std::io::Write;

#[derive(Clone, Default)]
struct Sums {
    segments: u64,
    work: u64,
    on_path: u64,
    path: u64,
    slack: Option<u64>,
    busy: u64,
    delayed: u64,
    starved: u64,
}

pub fn places(graph: &Graph, document: &Document) -> Result<Vec<u8>, Refusal> {
    let rest = Document::split(document.rest.ok_or_else(bad_form)?);
    let places = read_places(rest.program, graph.len())?;
    let before = document.ended() + rest.ended() + 1;
    let times = rest.rest.map(|lines| read_times(before, lines, graph.len())).transpose()?;
    times.iter().try_for_each(|times| times.check(graph))?;
    let found = analyse(graph)?;
    let count = places.iter().max().map_or(0, |largest| largest + 1);
    let mut of_places = filled(Sums::default(), count)?;
    for ((place, cost), slack) in places.iter().zip(&graph.costs).zip(&found.slacks) {
        let sums = &mut of_places[*place];
        sums.segments += 1;
        sums.work += cost;
        sums.slack = sums.slack.into_iter().chain([*slack]).min();
    }
    for member in &found.chain {
        let sums = &mut of_places[places[*member as usize]];
        sums.on_path += 1;
        sums.path += graph.costs[*member as usize];
    }
    if let Some(times) = &times {
        let Idle { delayed, starved } = idle_by_segment(&readies(graph, times)?, times)?;
        for (segment, place) in places.iter().enumerate() {
            let (sums, ran) = (&mut of_places[*place], times.ran[segment]);
            sums.busy += ran.end - ran.begin;
            sums.delayed += delayed[segment];
            sums.starved += starved[segment];
        }
    }
    Ok(table(&of_places, times.is_some()))
}

/// A place for each segment, in their order. Places are numbered below the number of segments.
fn read_places(text: &[u8], segments: usize) -> Result<Vec<usize>, Refusal> {
    let mut places = Vec::new();
    for word in words(text) {
        push(&mut places, number(word, segments as u64 - 1).ok_or_else(bad_form)? as usize)?;
    }
    ensure(places.len() == segments, || refused("Count"))?;
    Ok(places)
}

fn table(of_places: &[Sums], is_timed: bool) -> Vec<u8> {
    let more = if is_timed { ",busy,delayed,starved" } else { "" };
    let mut text = format!("place,segments,work,on_path,path,slack{more}\n").into_bytes();
    for (place, sums) in of_places.iter().enumerate() {
        let slack = sums.slack.map_or(String::new(), |slack| slack.to_string());
        let Sums { segments, work, on_path, path, busy, delayed, starved, .. } = sums;
        let more = if is_timed { format!(",{busy},{delayed},{starved}") } else { String::new() };
        writeln!(text, "{place},{segments},{work},{on_path},{path},{slack}{more}").expect("memory takes it");
    }
    text
}

#[cfg(test)]
mod tests {
    use super::places;
    use crate::cut::Table;
    use crate::documents::Document;
    use crate::graph::Graph;
    use crate::limits::ANY_SIZE;
    use crate::read::read;
    use crate::refusal::printed;

    fn report_of(rest: &str) -> String {
        let text = format!("omptasks 1\nwork 5 task {{ work 3 }} work 2 taskwait work 1\n{rest}");
        let document = Document::split(text.as_bytes());
        let program = read(document.program, &ANY_SIZE).unwrap_or_else(|fault| panic!("{fault}"));
        let graph = Table::of(&program).and_then(|table| Graph::of(&program, &table));
        printed(graph.and_then(|graph| places(&graph, &document)))
    }

    #[test]
    fn sums_by_place() {
        // Segments 0, 1 and 3 are on the path of 5 + 3 + 1; segment 2, of cost 2, has a slack of 1.
        let header = "place,segments,work,on_path,path,slack\n";
        let worked = [
            ("---\n0 1 2 3", "0,1,5,1,5,0\n1,1,3,1,3,0\n2,1,2,0,0,1\n3,1,1,1,1,0\n"),
            ("---\n0\n0\n0\n0\n", "0,4,11,3,9,0\n"),
            ("---\n2 0 02 2", "0,1,3,1,3,0\n1,0,0,0,0,\n2,3,8,2,6,0\n"),
        ];
        for (rest, rows) in worked {
            assert_eq!(report_of(rest), format!("{header}{rows}"), "{rest}");
        }
    }

    #[test]
    fn with_times() {
        // Segments 1 and 2 are ready from 5 on: from 5 to 6 both threads are delayed at segment 1, then one at 2, and from
        // 11 to 12 both at 3. No segment is ready while 0, 2 and 3 run alone.
        let times = "---\ntimes 2 0 14\n0 0 0 5\n1 0 6 9\n2 0 9 11\n3 1 12 13\n";
        let header = "place,segments,work,on_path,path,slack,busy,delayed,starved\n";
        let worked = [
            ("0 1 2 3", "0,1,5,1,5,0,5,0,5\n1,1,3,1,3,0,3,2,0\n2,1,2,0,0,1,2,3,2\n3,1,1,1,1,0,1,2,1\n"),
            ("0 0 0 0", "0,4,11,3,9,0,11,7,8\n"),
            ("2 0 2 2", "0,1,3,1,3,0,3,2,0\n1,0,0,0,0,,0,0,0\n2,3,8,2,6,0,8,5,8\n"),
        ];
        for (places, rows) in worked {
            assert_eq!(report_of(&format!("---\n{places}\n{times}")), format!("{header}{rows}"), "{places}");
        }
    }

    #[test]
    fn refused() {
        let wrong = [
            ("", "BadForm"), ("---\n", "Count"), ("---\n0 1 2", "Count"), ("---\n0 1 2 3 0", "Count"),
            ("---\n0 1 2 4", "BadForm"), ("---\n0 1 x", "BadForm"), ("---\n-1 0 0 0", "BadForm"),
            ("---\n0 0 0 0\n---\n", "line 6: BadForm"),
            ("---\n0 0 0 0\n---\ntimes 2 0 14\n0 0 0 +5\n", "line 7: BadForm"),
            ("---\n0 0 0 0\n---\ntimes 2 0 14\n0 0 0 5\n", "NotTimed 1"),
            ("---\n0 0 0 0\n---\ntimes 2 0 14\n0 0 0 5\n1 0 4 9\n2 0 9 11\n3 1 12 13\n", "TooSoon 1 0"),
        ];
        for (rest, why) in wrong {
            assert_eq!(report_of(rest), why, "{rest}");
        }
    }
}
