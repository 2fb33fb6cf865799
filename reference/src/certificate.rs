//! Certificates of a program's span: written, and checked.

use crate::analysis::analyse;
use crate::cut::Table;
use crate::documents::{number, words, Document};
use crate::graph::Graph;
use crate::growth::{listed, push};
use crate::limits::{Limits, MOST_MOMENT};
use crate::program::Program;
use crate::read::read;
use crate::refusal::{bad_form, ensure, refused, Refusal};
use crate::relation::Relation;
use std::io::Write;

struct Claim {
    end: u64,
    /// A segment and its start.
    starts: Vec<(u64, u64)>,
    chain: Vec<u64>,
}

pub fn certify(program: &Program, graph: &Graph) -> Result<Vec<u8>, Refusal> {
    let found = analyse(graph)?;
    let mut text = program.canonical_text();
    writeln!(text, "---\nend {}", found.span).expect("memory takes it");
    for (segment, start) in found.starts.iter().enumerate() {
        writeln!(text, "start {segment} {start}").expect("memory takes it");
    }
    text.extend_from_slice(b"chain");
    for segment in &found.chain {
        write!(text, " {segment}").expect("memory takes it");
    }
    text.push(b'\n');
    Ok(text)
}

fn moment(word: Option<&[u8]>) -> Result<u64, Refusal> {
    word.and_then(|word| number(word, MOST_MOMENT)).ok_or_else(bad_form)
}

fn read_claim(rest: &[u8]) -> Result<Claim, Refusal> {
    let mut words = words(rest);
    ensure(words.next() == Some(&b"end"[..]), bad_form)?;
    let mut claim = Claim { end: moment(words.next())?, starts: Vec::new(), chain: Vec::new() };
    loop {
        match words.next() {
            Some(b"start") => push(&mut claim.starts, (moment(words.next())?, moment(words.next())?))?,
            Some(b"chain") => break,
            _ => return Err(bad_form()),
        }
    }
    for word in words {
        push(&mut claim.chain, moment(Some(word))?)?;
    }
    ensure(!claim.chain.is_empty(), bad_form)?;
    Ok(claim)
}

pub fn check(document: &Document, limits: &Limits) -> Result<Vec<u8>, Refusal> {
    let (count, end) = verify(document, limits)?;
    Ok(format!("accepted\nsegments {count}\nend {end}\n").into_bytes())
}

/// The number of segments and the end, where the certificate holds.
pub fn verify(document: &Document, limits: &Limits) -> Result<(u64, u64), Refusal> {
    let program = read(document.program, limits)?;
    let table = Table::of(&program)?;
    let claim = read_claim(document.rest.filter(|rest| rest.len() <= limits.claim).ok_or_else(bad_form)?)?;
    let count = table.segments.len() as u64;
    let is_each = claim.starts.iter().map(|(segment, _)| *segment).eq(0..count);
    ensure(is_each && claim.chain.iter().all(|segment| *segment < count), || refused("WrongCount"))?;
    let relation = Relation::new(&program, &table);
    check_starts(&Graph::of(&program, &table)?, &relation, &claim)?;
    check_chain(&table, &relation, &claim)?;
    Ok((count, claim.end))
}

/// The starts are a legal schedule with this end. Where one breaks the relation, some one breaks a kept edge: the first
/// segment that starts too soon is the same.
fn check_starts(graph: &Graph, relation: &Relation, claim: &Claim) -> Result<(), Refusal> {
    let ends = listed(graph.costs.iter().zip(&claim.starts).map(|(cost, (_, start))| start + cost))?;
    for t in graph.segments() {
        let is_late = |s: u32| ends[s as usize] > claim.starts[t as usize].1;
        if graph.preds(t).iter().any(|pred| is_late(*pred)) {
            let s = relation.least_before(t, is_late).expect("a kept predecessor must precede");
            return Err(Refusal::Pair("Broken", s, t));
        }
    }
    ensure(ends.iter().max() == Some(&claim.end), || refused("EndWrong"))
}

/// The chain is one, and attains the end.
fn check_chain(table: &Table, relation: &Relation, claim: &Claim) -> Result<(), Refusal> {
    for step in claim.chain.windows(2) {
        let (s, t) = (step[0] as u32, step[1] as u32);
        ensure(relation.must_precede(s, t), || Refusal::Pair("ChainStep", s, t))?;
    }
    let sum: u64 = claim.chain.iter().map(|segment| table.segments[*segment as usize].cost).sum();
    ensure(sum == claim.end, || refused("ChainSum"))
}

#[cfg(test)]
mod tests {
    use super::check;
    use crate::documents::Document;
    use crate::limits::COMMANDS;
    use crate::refusal::printed;

    #[test]
    fn each_test_in_turn() {
        let starts = "start 0 0 start 1 5 start 2 5 start 3 8";
        let rows = [
            (format!("end 9 {starts} chain 0 1 3"), "accepted\nsegments 4\nend 9\n"),
            (format!("end 9 {starts} chain"), "BadForm"),
            ("end 9 start 0 0 chain 0".to_string(), "WrongCount"),
            (format!("end 9 {starts} chain 0 4"), "WrongCount"),
            (format!("end 9 {} chain 0 1 3", starts.replace("2 5", "2 4")), "Broken 0 2"),
            (format!("end 9 {} chain 0 1 3", starts.replace("3 8", "3 7")), "Broken 1 3"),
            (format!("end 8 {starts} chain 0 1 3"), "EndWrong"),
            (format!("end 9 {starts} chain 0 3"), "ChainStep 0 3"),
            (format!("end 9 {starts} chain 0 2 3"), "ChainSum"),
        ];
        for (claim, wanted) in rows {
            let document = format!("omptasks 1\nwork 5 task {{ work 3 }} work 2 taskwait work 1\n---\n{claim}");
            assert_eq!(printed(check(&Document::split(document.as_bytes()), &COMMANDS)), wanted, "{claim}");
        }
    }
}
