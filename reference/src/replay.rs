//! A list of starts and finishes: the first that is not legal, or what all of them record.

use crate::cut::Table;
use crate::documents::{small_number, words, Document};
use crate::graph::Graph;
use crate::limits::{Limits, MOST_WORKERS};
use crate::read::read;
use crate::refusal::{bad_form, Refusal};
use crate::relation::Relation;
use crate::reports::preds_line;

struct Event {
    is_start: bool,
    worker: u32,
    segment: u32,
}

struct Run<'a> {
    graph: &'a Graph,
    relation: Relation<'a>,
    /// What each worker runs.
    running: Vec<Option<u32>>,
    started: Vec<bool>,
    finished: Vec<bool>,
}

impl Run<'_> {
    fn start(&mut self, event: &Event) -> Result<(), String> {
        let place = self.running.get_mut(event.worker as usize).ok_or("UnknownWorker")?;
        let started = self.started.get_mut(event.segment as usize).ok_or("UnknownSegment")?;
        if place.is_some() {
            return Err("WorkerBusy".into());
        }
        if *started {
            return Err("AlreadyStarted".into());
        }
        let is_missing = |before: u32| !self.finished[before as usize];
        if self.graph.preds(event.segment).iter().any(|pred| is_missing(*pred)) {
            let before = self.relation.least_before(event.segment, is_missing);
            return Err(format!("NotReady {}", before.expect("a kept predecessor must precede")));
        }
        *place = Some(event.segment);
        *started = true;
        Ok(())
    }

    fn finish(&mut self, event: &Event) -> Result<(), String> {
        let place = self.running.get_mut(event.worker as usize).filter(|place| **place == Some(event.segment));
        *place.ok_or("NotRunning")? = None;
        self.finished[event.segment as usize] = true;
        Ok(())
    }

    /// Whether a segment is open: the one before it in its task, or its creator, has finished.
    fn is_open(&self, table: &Table, segment: u32) -> bool {
        let before = table.segments[segment as usize].before.or(table.task_of(segment).creator);
        before.map_or(true, |before| self.finished[before as usize])
    }
}

fn read_events(rest: &[u8], most: usize) -> Option<Vec<Event>> {
    let mut words = words(rest);
    let mut events = Vec::new();
    while let Some(word) = words.next() {
        if word != b"start" && word != b"finish" || events.len() == most {
            return None;
        }
        let (worker, segment) = (small_number(words.next()?)?, small_number(words.next()?)?);
        events.push(Event { is_start: word == b"start", worker, segment });
    }
    Some(events)
}

pub fn replay(document: &Document, limits: &Limits) -> Result<Vec<u8>, Refusal> {
    let program = read(document.program, limits)?;
    let events = document.rest.and_then(|rest| read_events(rest, limits.events)).ok_or_else(bad_form)?;
    let table = Table::of(&program)?;
    let graph = Graph::of(&program, &table)?;
    let mut run = Run {
        graph: &graph,
        relation: Relation::new(&program, &table),
        running: vec![None; MOST_WORKERS as usize],
        started: vec![false; graph.len()],
        finished: vec![false; graph.len()],
    };
    for (index, event) in events.iter().enumerate() {
        let taken = if event.is_start { run.start(event) } else { run.finish(event) };
        taken.map_err(|why| Refusal::Other(format!("event {index}: {why}")))?;
    }
    let finished = run.finished.iter().filter(|finished| **finished).count();
    let mut text = format!("events {}\nfinished {finished}\n", events.len()).into_bytes();
    let open = graph.segments().filter(|segment| run.is_open(&table, *segment));
    open.for_each(|segment| preds_line(&graph, segment, &mut text));
    Ok(text)
}

#[cfg(test)]
mod tests {
    use super::replay;
    use crate::documents::Document;
    use crate::limits::COMMANDS;
    use crate::refusal::printed;

    #[test]
    fn legal_and_refused_events() {
        let whole = "start 0 0 finish 0 0 start 0 2 finish 0 2 start 1 1 finish 1 1 start 0 3 finish 0 3";
        let recorded = "events 8\nfinished 4\npreds 0\npreds 1 0\npreds 2 0\npreds 3 1 2\n";
        let rows = [
            (whole, recorded),
            ("", "events 0\nfinished 0\npreds 0\n"),
            ("start 0", "BadForm"),
            ("start 0 +0", "BadForm"),
            ("start 64 0", "event 0: UnknownWorker"),
            ("start 0 4", "event 0: UnknownSegment"),
            ("start 0 0 start 0 1", "event 1: WorkerBusy"),
            ("start 0 0 start 1 0", "event 1: AlreadyStarted"),
            ("start 0 3", "event 0: NotReady 1"),
            ("start 0 0 finish 1 0", "event 1: NotRunning"),
        ];
        for (events, wanted) in rows {
            let document = format!("omptasks 1 work 5 task {{ work 3 }} work 2 taskwait work 1\n---\n{events}");
            assert_eq!(printed(replay(&Document::split(document.as_bytes()), &COMMANDS)), wanted, "{events}");
        }
    }
}
