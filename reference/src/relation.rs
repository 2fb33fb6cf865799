//! The whole relation of a program: which segment must precede which, in the six cases of docs/MODEL.md.

use crate::cut::{Closing, Table};
use crate::program::{Item, Program};

pub struct Relation<'a> {
    program: &'a Program,
    table: &'a Table,
}

impl<'a> Relation<'a> {
    pub fn new(program: &'a Program, table: &'a Table) -> Relation<'a> {
        Relation { program, table }
    }

    /// Whether s must precede t.
    pub fn must_precede(&self, s: u32, t: u32) -> bool {
        self.continues(s, t) || self.creates(s, t) || s < t && self.ends_before(s, t)
    }

    /// The least segment that must precede t and of which this is so.
    pub fn least_before(&self, t: u32, is_so: impl Fn(u32) -> bool) -> Option<u32> {
        (0..t).find(|s| is_so(*s) && self.must_precede(*s, t))
    }

    /// Order: t is the next segment of the same task.
    fn continues(&self, s: u32, t: u32) -> bool {
        self.table.segments[t as usize].before == Some(s)
    }

    /// Creation: s creates the task whose first segment is t.
    fn creates(&self, s: u32, t: u32) -> bool {
        self.table.segments[t as usize].before.is_none() && self.table.task_of(t).creator == Some(s)
    }

    /// The other cases: s is the last of a task for which t waits.
    fn ends_before(&self, s: u32, t: u32) -> bool {
        let (ended, waiting) = (self.table.segments[s as usize].task, &self.table.segments[t as usize]);
        let task = &self.table.tasks[ended as usize];
        if task.last != s {
            return false;
        }
        match waiting.before.map(|before| self.table.segments[before as usize].closing) {
            None => self.depends(ended, waiting.task),
            Some(Closing::Creates(child)) => child == ended && task.undeferred,
            Some(Closing::Waits) => task.parent == Some(waiting.task),
            // The tasks that begin inside a group are numbered from its begin on.
            Some(Closing::EndsGroup { tasks_before }) => ended >= tasks_before,
            Some(Closing::EndsTask) => false,
        }
    }

    /// Whether a task depends on an earlier sibling.
    fn depends(&self, earlier: u32, later: u32) -> bool {
        let parent_of = |task: u32| self.table.tasks[task as usize].parent;
        let items = self.program.items_of(later);
        parent_of(later).is_some()
            && parent_of(earlier) == parent_of(later)
            && self.program.items_of(earlier).iter().any(|item| items.iter().any(|other| conflict(item, other)))
    }
}

fn conflict(item: &Item, other: &Item) -> bool {
    item.name == other.name && item.kind.conflicts(other.kind)
}

#[cfg(test)]
mod tests {
    use super::Relation;
    use crate::analysis::{analyse, earliest};
    use crate::cut::Table;
    use crate::graph::Graph;
    use crate::limits::COMMANDS;
    use crate::meter::Meter;
    use crate::read::read;

    /// A random program.
    fn text(mut seed: u64) -> String {
        let mut draw = move |most: u64| {
            seed = seed.wrapping_mul(6_364_136_223_846_793_005).wrapping_add(1_442_695_040_888_963_407);
            (seed >> 33) % most
        };
        let (mut text, mut open) = ("omptasks 1\n".to_string(), 0);
        for _ in 0..40 {
            let (kind, name) = (["in", "out", "inout", "inoutset"][draw(4) as usize], ["a", "b"][draw(2) as usize]);
            match draw(8) {
                0 => text += "taskwait\n",
                1 | 2 if open > 0 => text += "}\n",
                3 => text += "taskgroup {\n",
                4 | 5 => text += &format!("task if({}) depend({kind}: {name}, a) {{\n", draw(2)),
                cost => text += &format!("work {cost}\n"),
            }
            open = text.matches('{').count() - text.matches('}').count();
        }
        text + &"}\n".repeat(open)
    }

    #[test]
    fn kept_edges_have_the_chains_of_the_whole_relation() {
        for seed in 0..200 {
            let program = read(text(seed).as_bytes(), &COMMANDS).unwrap_or_else(|fault| panic!("{seed}: {fault}"));
            let table = Table::of(&program).expect("memory takes it");
            let graph = Graph::of(&program, &table).expect("memory takes it");
            let relation = Relation::new(&program, &table);
            let mut starts: Vec<u64> = Vec::new();
            for t in 0..graph.len() as u32 {
                let before = |s: &u32| relation.must_precede(*s, t);
                assert!(graph.preds(t).iter().all(before), "{seed}");
                let ends = (0..t).filter(before).map(|s| starts[s as usize] + graph.costs[s as usize]);
                starts.push(ends.max().unwrap_or(0));
            }
            let span = Meter::of(&program).span;
            assert_eq!(Ok((starts, span)), earliest(&graph), "{seed}");
            let found = analyse(&graph).expect("memory takes it");
            let chain: u64 = found.chain.iter().map(|member| graph.costs[*member as usize]).sum();
            assert_eq!((chain, found.span), (span, span), "{seed}");
            assert!(found.chain.windows(2).all(|step| relation.must_precede(step[0], step[1])), "{seed}");
        }
    }
}
