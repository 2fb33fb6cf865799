//! Work and span in one pass over the marks, without the graph: each wait, end and depend item takes the greatest of a
//! few ends.

use crate::program::{Item, Kind, Mark, Program};
use std::collections::HashMap;

const KINDS: [Kind; 4] = [Kind::In, Kind::Out, Kind::InOut, Kind::InOutSet];

#[derive(Default)]
struct OpenTask {
    number: u32,
    /// The earliest end of its current segment, so far.
    end: u64,
    /// The greatest end of a child.
    children: u64,
    /// By name and kind, the greatest end of a child with such an item.
    ends: HashMap<u32, [u64; KINDS.len()]>,
}

pub struct Meter {
    open: Vec<OpenTask>,
    /// The greatest end inside each open group.
    groups: Vec<u64>,
    pub tasks: u64,
    pub segments: u64,
    pub work: u64,
    pub span: u64,
}

impl Meter {
    /// What a whole program measures.
    pub fn of(program: &Program) -> Meter {
        let open = vec![OpenTask::default()];
        let mut meter = Meter { open, groups: Vec::new(), tasks: 0, segments: 1, work: 0, span: 0 };
        for mark in &program.marks {
            match mark {
                Mark::Work(cost) => meter.add_work(*cost),
                Mark::Task(number) => meter.begin_task(*number, program.items_of(*number)),
                Mark::EndTask => meter.end_task(program),
                Mark::Wait => meter.wait(),
                Mark::Group => meter.groups.push(0),
                Mark::EndGroup => meter.end_group(),
            }
        }
        meter
    }

    fn running(&mut self) -> &mut OpenTask {
        self.open.last_mut().expect("the root stays open")
    }

    fn add_work(&mut self, cost: u64) {
        let task = self.running();
        task.end += cost;
        let end = task.end;
        self.work += cost;
        self.span = self.span.max(end);
    }

    fn wait(&mut self) {
        let task = self.running();
        task.end = task.end.max(task.children);
        self.segments += 1;
    }

    fn end_group(&mut self) {
        let inside = self.groups.pop().expect("a group is open");
        self.note_end(inside);
        let task = self.running();
        task.end = task.end.max(inside);
        self.segments += 1;
    }

    fn begin_task(&mut self, number: u32, items: &[Item]) {
        let parent = self.running();
        let mut start = parent.end;
        for item in items {
            let ends = parent.ends.get(&item.name).copied().unwrap_or_default();
            let conflicting = KINDS.iter().zip(ends).filter(|(kind, _)| item.kind.conflicts(**kind));
            start = conflicting.fold(start, |start, (_, end)| start.max(end));
        }
        self.open.push(OpenTask { number, end: start, ..OpenTask::default() });
        self.tasks += 1;
        self.segments += 2;
    }

    fn end_task(&mut self, program: &Program) {
        let child = self.open.pop().expect("a task is open");
        let parent = self.running();
        parent.children = parent.children.max(child.end);
        if program.tasks[child.number as usize].undeferred {
            parent.end = parent.end.max(child.end);
        }
        for item in program.items_of(child.number) {
            let end = &mut parent.ends.entry(item.name).or_default()[item.kind as usize];
            *end = child.end.max(*end);
        }
        self.note_end(child.end);
    }

    /// Notes an end inside the innermost open group.
    fn note_end(&mut self, end: u64) {
        if let Some(group) = self.groups.last_mut() {
            *group = (*group).max(end);
        }
    }
}
