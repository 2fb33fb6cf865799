//! Whether one program is a relaxation of another: the same segments, with no more to wait for.

use crate::cut::Table;
use crate::documents::Document;
use crate::graph::Graph;
use crate::limits::Limits;
use crate::program::Program;
use crate::read::read;
use crate::refusal::{bad_form, ensure, refused, Refusal};
use crate::relation::Relation;

/// The answer to a document of two programs.
pub fn relaxation(document: &Document, limits: &Limits) -> Result<Vec<u8>, Refusal> {
    let old = read(document.program, limits)?;
    let new = read(document.rest.ok_or_else(bad_form)?, limits).map_err(|fault| match fault {
        Refusal::Line(line, what) => Refusal::Line(document.ended() + 1 + line, what),
        other => other,
    })?;
    judge(&old, &new).map(|()| b"accepted\n".to_vec())
}

/// The first segment that is another one, or a pair that is new.
fn judge(old: &Program, new: &Program) -> Result<(), Refusal> {
    let (before, after) = (Table::of(old)?, Table::of(new)?);
    ensure(before.segments.len() == after.segments.len(), || refused("WrongCount"))?;
    for (number, (one, other)) in (0..).zip(before.segments.iter().zip(&after.segments)) {
        let is_same = (one.task, one.before, one.cost) == (other.task, other.before, other.cost);
        ensure(is_same, || Refusal::Segment("OtherSegment", number))?;
    }
    let (graph, relation) = (Graph::of(new, &after)?, Relation::new(old, &before));
    for t in 0..graph.len() as u32 {
        for s in graph.preds(t) {
            ensure(relation.must_precede(*s, t), || Refusal::Pair("NewPair", *s, t))?;
        }
    }
    Ok(())
}
