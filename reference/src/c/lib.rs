//! libspanprof by the reference implementation: the calls of `include/spanprof.h`, with the answers and the refusals of
//! the proved library. Nothing of it is proved. Memory that is refused is reported as the header says.
//!
//! Each call is safe where its caller does what the header asks: no pointer is null, each list has as many places as its
//! length says, and what is filled overlaps nothing else.
#![allow(clippy::missing_safety_doc, clippy::too_many_arguments)]

mod asked;
mod refusal;
mod results;

use asked::{ensure_each, ensure_threads, times_of, Text};
use reference::account::{readies, sums};
use reference::analysis::{analyse, earliest};
use reference::certificate::verify;
use reference::cut::Table;
use reference::documents::Document;
use reference::graph::Graph;
use reference::greedy::schedule;
use reference::growth::filled;
use reference::limits::MOST_WORK;
use reference::refusal::{ensure, refused, Refusal};
use reference::reports::bounds_on;
use refusal::Place;
use std::panic::{catch_unwind, AssertUnwindSafe};
use std::slice::{from_raw_parts, from_raw_parts_mut};
use results::{Accounted, Analysed, Bounded, Certified, Measured};

/// The number of what came of a call. A fault of this library, which Rust reports on standard error, is answered as the
/// refusal that may be answered in place of anything else.
fn answered(place: &mut Place, call: impl FnOnce() -> Result<(), Refusal>) -> u32 {
    let outcome = catch_unwind(AssertUnwindSafe(call)).unwrap_or(Err(Refusal::OutOfMemory));
    let (number, at) = outcome.map_or_else(|why| refusal::numbered(&why), |_| (0, Place::default()));
    *place = at;
    number
}

#[no_mangle]
pub unsafe extern "C" fn spanprof_measure(
    text: *const u8, bytes: usize, any_size: bool, costs: *const u64, count: usize, result: &mut Measured,
    place: &mut Place,
) -> u32 {
    let (text, costs) = (Text { bytes: from_raw_parts(text, bytes), any_size }, from_raw_parts(costs, count));
    answered(place, || {
        let graph = text.graph(costs)?;
        let span = earliest(&graph)?.1;
        *result = Measured { segments: graph.len() as u64, work: graph.work(), span };
        Ok(())
    })
}

#[no_mangle]
pub unsafe extern "C" fn spanprof_segments(
    text: *const u8, bytes: usize, any_size: bool, tasks: *mut u32, tasks_length: usize, costs: *mut u64,
    costs_length: usize, place: &mut Place,
) -> u32 {
    let text = Text { bytes: from_raw_parts(text, bytes), any_size };
    let (tasks, costs) = (from_raw_parts_mut(tasks, tasks_length), from_raw_parts_mut(costs, costs_length));
    answered(place, || {
        let segments = Table::of(&text.program()?)?.segments;
        ensure_each(segments.len(), &[tasks.len(), costs.len()])?;
        for ((segment, task), cost) in segments.iter().zip(tasks).zip(costs) {
            (*task, *cost) = (segment.task, segment.cost);
        }
        Ok(())
    })
}

#[no_mangle]
pub unsafe extern "C" fn spanprof_analyse(
    text: *const u8, bytes: usize, any_size: bool, costs: *const u64, count: usize, starts: *mut u64,
    starts_length: usize, slacks: *mut u64, slacks_length: usize, path: *mut u32, path_length: usize,
    result: &mut Analysed, place: &mut Place,
) -> u32 {
    let (text, costs) = (Text { bytes: from_raw_parts(text, bytes), any_size }, from_raw_parts(costs, count));
    let (starts, slacks) = (from_raw_parts_mut(starts, starts_length), from_raw_parts_mut(slacks, slacks_length));
    let path = from_raw_parts_mut(path, path_length);
    answered(place, || {
        let graph = text.graph(costs)?;
        ensure_each(graph.len(), &[starts.len(), slacks.len(), path.len()])?;
        let found = analyse(&graph)?;
        starts.copy_from_slice(&found.starts);
        slacks.copy_from_slice(&found.slacks);
        path[..found.chain.len()].copy_from_slice(&found.chain);
        *result = Analysed { work: graph.work(), span: found.span, path_length: found.chain.len() as u64 };
        Ok(())
    })
}

#[no_mangle]
pub unsafe extern "C" fn spanprof_greedy(
    text: *const u8, bytes: usize, any_size: bool, costs: *const u64, count: usize, thread_count: u32,
    starts: *mut u64, starts_length: usize, threads: *mut u32, threads_length: usize, end: &mut u64,
    place: &mut Place,
) -> u32 {
    let (text, costs) = (Text { bytes: from_raw_parts(text, bytes), any_size }, from_raw_parts(costs, count));
    let (starts, threads) = (from_raw_parts_mut(starts, starts_length), from_raw_parts_mut(threads, threads_length));
    answered(place, || {
        let graph = text.graph(costs)?;
        ensure_each(graph.len(), &[starts.len(), threads.len()])?;
        ensure_threads(thread_count as usize)?;
        let run = schedule(&graph, &graph.successors()?, thread_count)?;
        starts.copy_from_slice(&run.starts);
        for (place, thread) in threads.iter_mut().zip(run.threads) {
            *place = thread.unwrap_or(u32::MAX);
        }
        *end = run.end;
        Ok(())
    })
}

#[no_mangle]
pub unsafe extern "C" fn spanprof_curve(
    text: *const u8, bytes: usize, any_size: bool, costs: *const u64, count: usize, ends: *mut u64,
    ends_length: usize, place: &mut Place,
) -> u32 {
    let (text, costs) = (Text { bytes: from_raw_parts(text, bytes), any_size }, from_raw_parts(costs, count));
    let ends = from_raw_parts_mut(ends, ends_length);
    answered(place, || {
        let graph = text.graph(costs)?;
        ensure_threads(ends.len())?;
        ends.copy_from_slice(&ends_of(&graph, ends.len())?);
        Ok(())
    })
}

/// The ends of the greedy schedules on 1, 2, .. threads.
fn ends_of(graph: &Graph, count: usize) -> Result<Vec<u64>, Refusal> {
    let (mut ends, successors) = (filled(0, count)?, graph.successors()?);
    for (threads, end) in (1..).zip(&mut ends) {
        *end = schedule(graph, &successors, threads)?.end;
    }
    Ok(ends)
}

#[no_mangle]
pub unsafe extern "C" fn spanprof_is_legal(
    text: *const u8, bytes: usize, any_size: bool, costs: *const u64, count: usize, starts: *const u64,
    starts_length: usize, legal: *mut bool, place: &mut Place,
) -> u32 {
    let (text, costs) = (Text { bytes: from_raw_parts(text, bytes), any_size }, from_raw_parts(costs, count));
    let starts = from_raw_parts(starts, starts_length);
    answered(place, || {
        let graph = text.graph(costs)?;
        *legal = starts.len() == graph.len() && graph.segments().all(|segment| waits(&graph, starts, segment));
        Ok(())
    })
}

/// Whether a segment starts when all its predecessors have ended.
fn waits(graph: &Graph, starts: &[u64], segment: u32) -> bool {
    let end = |one: u32| u128::from(starts[one as usize]) + u128::from(graph.costs[one as usize]);
    graph.preds(segment).iter().all(|pred| end(*pred) <= u128::from(starts[segment as usize]))
}

#[no_mangle]
pub unsafe extern "C" fn spanprof_account(
    text: *const u8, bytes: usize, any_size: bool, thread_count: u32, first: u64, last: u64, threads: *const u32,
    threads_length: usize, begins: *const u64, begins_length: usize, ends: *const u64, ends_length: usize,
    moments: *mut u64, moments_length: usize, result: &mut Accounted, place: &mut Place,
) -> u32 {
    let text = Text { bytes: from_raw_parts(text, bytes), any_size };
    let (threads, begins) = (from_raw_parts(threads, threads_length), from_raw_parts(begins, begins_length));
    let (ends, moments) = (from_raw_parts(ends, ends_length), from_raw_parts_mut(moments, moments_length));
    answered(place, || {
        let graph = text.graph(&[])?;
        ensure_each(graph.len(), &[moments.len()])?;
        let times = times_of((thread_count, first, last), threads, begins, ends)?;
        times.check(&graph)?;
        let found = sums(readies(&graph, &times)?, &times)?;
        moments.copy_from_slice(&readies(&graph, &times)?);
        moments[0] = 0;
        let (busy, delayed, starved, outside) = (found.busy, found.delayed, found.starved, found.outside);
        *result = Accounted { busy, delayed, starved, outside };
        Ok(())
    })
}

#[no_mangle]
pub unsafe extern "C" fn spanprof_check(
    document: *const u8, bytes: usize, any_size: bool, result: &mut Certified, place: &mut Place,
) -> u32 {
    let text = Text { bytes: from_raw_parts(document, bytes), any_size };
    answered(place, || {
        let (segments, ends_at) = verify(&Document::split(text.bytes), &text.limits())?;
        *result = Certified { segments, ends_at };
        Ok(())
    })
}

#[no_mangle]
pub extern "C" fn spanprof_bounds(work: u64, span: u64, threads: u32, result: &mut Bounded) -> u32 {
    answered(&mut Place::default(), || {
        ensure_threads(threads as usize)?;
        ensure(span <= work && work <= MOST_WORK, || refused("CostsTooLarge"))?;
        let (least, greatest) = bounds_on(work, span, u64::from(threads));
        *result = Bounded { least, greatest };
        Ok(())
    })
}

#[cfg(test)]
mod tests {
    use super::*;

    fn measured(text: &str, costs: &[u64]) -> (u32, Measured, Place) {
        let (mut found, mut place) = (Measured::default(), Place { line: 7, segment: 7, other: 7 });
        let (bytes, count) = (text.len(), costs.len());
        // SAFETY: the pointers and lengths are those of a text and a list.
        let call = unsafe { spanprof_measure(text.as_ptr(), bytes, true, costs.as_ptr(), count, &mut found, &mut place) };
        (call, found, place)
    }

    const TEXT: &str = "omptasks 1\nwork 5 task { work 3 } work 2 taskwait work 1\n";

    #[test]
    fn answers_and_refusals() {
        assert_eq!(measured(TEXT, &[]), (0, Measured { segments: 4, work: 11, span: 9 }, Place::default()));
        assert_eq!(measured(TEXT, &[5, 9, 2, 1]).1.span, 15);
        let refused = |text, costs| (measured(text, costs).0, measured(text, costs).2);
        assert_eq!(refused("omptasks 1\n}", &[]), (7, Place { line: 2, ..Place::default() }));
        assert_eq!(refused(TEXT, &[1]), (16, Place::default()));
        assert_eq!(refused(TEXT, &[u64::MAX, 1, 0, 0]), (17, Place::default()));
    }

    #[test]
    fn bounds_within_their_limits() {
        let mut found = Bounded::default();
        assert_eq!(spanprof_bounds(11, 9, 2, &mut found), 0);
        assert_eq!(found, Bounded { least: 9, greatest: 10 });
        for (work, span, threads, number) in [(11, 9, 0, 15), (11, 9, 1025, 15), (9, 11, 2, 17), (u64::MAX, 1, 2, 17)] {
            assert_eq!(spanprof_bounds(work, span, threads, &mut found), number);
        }
    }

    #[test]
    fn a_panic_is_no_answer() {
        let mut place = Place { line: 7, segment: 7, other: 7 };
        assert_eq!((answered(&mut place, || panic!("a test")), place), (13, Place::default()));
    }
}
