//! The segments and tasks of a program.

use crate::growth::push;
use crate::program::{Mark, Program};
use crate::refusal::Refusal;

#[derive(Clone, Copy, PartialEq, Eq)]
pub enum Closing {
    /// It creates a task, by its number.
    Creates(u32),
    Waits,
    /// It ends a group that began when there were so many tasks.
    EndsGroup { tasks_before: u32 },
    EndsTask,
}

pub struct Segment {
    pub task: u32,
    /// The segment before it in its task; the first has none.
    pub before: Option<u32>,
    pub cost: u64,
    pub closing: Closing,
}

pub struct Task {
    /// The root has none.
    pub parent: Option<u32>,
    /// The segment that creates it; the root has none.
    pub creator: Option<u32>,
    pub undeferred: bool,
    pub last: u32,
    /// The segment after the end of the innermost group that holds it, through its ancestors too.
    pub group: Option<u32>,
}

pub struct Table {
    pub segments: Vec<Segment>,
    pub tasks: Vec<Task>,
}

/// A group that is not yet ended: how many tasks there were when it began, and those whose innermost group it is.
struct OpenGroup {
    tasks_before: u32,
    tasks: Vec<u32>,
}

struct Cutter {
    table: Table,
    /// The tasks that are not yet ended.
    open: Vec<u32>,
    groups: Vec<OpenGroup>,
}

impl Table {
    pub fn of(program: &Program) -> Result<Table, Refusal> {
        let table = Table { segments: Vec::new(), tasks: Vec::new() };
        let mut cutter = Cutter { table, open: Vec::new(), groups: Vec::new() };
        cutter.begin_task(None, false)?;
        for mark in &program.marks {
            match mark {
                Mark::Work(cost) => cutter.current().cost += cost,
                Mark::Task(number) => {
                    cutter.begin_task(Some(cutter.last()), program.tasks[*number as usize].undeferred)?;
                }
                Mark::EndTask => cutter.end_task()?,
                Mark::Wait => cutter.go_on(Closing::Waits)?,
                Mark::Group => {
                    let tasks_before = cutter.table.tasks.len() as u32;
                    push(&mut cutter.groups, OpenGroup { tasks_before, tasks: Vec::new() })?;
                }
                Mark::EndGroup => cutter.end_group()?,
            }
        }
        cutter.table.tasks[0].last = cutter.last();
        Ok(cutter.table)
    }

    /// The task of a segment.
    pub fn task_of(&self, segment: u32) -> &Task {
        &self.tasks[self.segments[segment as usize].task as usize]
    }
}

impl Cutter {
    /// The number of the segment that is open.
    fn last(&self) -> u32 {
        self.table.segments.len() as u32 - 1
    }

    fn current(&mut self) -> &mut Segment {
        self.table.segments.last_mut().expect("the root has a segment")
    }

    fn open_segment(&mut self, task: u32, before: Option<u32>) -> Result<(), Refusal> {
        push(&mut self.table.segments, Segment { task, before, cost: 0, closing: Closing::EndsTask })
    }

    fn begin_task(&mut self, creator: Option<u32>, undeferred: bool) -> Result<(), Refusal> {
        let number = self.table.tasks.len() as u32;
        if creator.is_some() {
            self.current().closing = Closing::Creates(number);
        }
        if let Some(group) = self.groups.last_mut() {
            push(&mut group.tasks, number)?;
        }
        let parent = self.open.last().copied();
        push(&mut self.table.tasks, Task { parent, creator, undeferred, last: 0, group: None })?;
        push(&mut self.open, number)?;
        self.open_segment(number, None)
    }

    /// Ends the task, and goes on in its parent.
    fn end_task(&mut self) -> Result<(), Refusal> {
        let number = self.open.pop().expect("a task is open");
        let last = self.last();
        let task = &mut self.table.tasks[number as usize];
        task.last = last;
        let (parent, creator) = (task.parent.expect("the root ends last"), task.creator);
        self.open_segment(parent, creator)
    }

    /// Ends the segment, and goes on in the same task.
    fn go_on(&mut self, closing: Closing) -> Result<(), Refusal> {
        let before = self.last();
        self.current().closing = closing;
        self.open_segment(self.table.segments[before as usize].task, Some(before))
    }

    fn end_group(&mut self) -> Result<(), Refusal> {
        let group = self.groups.pop().expect("a group is open");
        self.go_on(Closing::EndsGroup { tasks_before: group.tasks_before })?;
        let after = self.last();
        for task in group.tasks {
            self.table.tasks[task as usize].group = Some(after);
        }
        Ok(())
    }
}
