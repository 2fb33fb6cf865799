//! The graph of a program: for each segment its cost and its predecessors by kept edges, ascending.

use crate::cut::{Closing, Table};
use crate::growth::{filled, listed, push};
use crate::program::Program;
use crate::refusal::Refusal;
use crate::siblings::kept_siblings;
use std::mem::take;

pub struct Graph {
    pub costs: Vec<u64>,
    predecessors: Lists,
}

/// A list for each segment, one behind the other.
pub struct Lists {
    begins: Vec<usize>,
    all: Vec<u32>,
}

impl Lists {
    pub fn of(&self, segment: u32) -> &[u32] {
        &self.all[self.begins[segment as usize]..self.begins[segment as usize + 1]]
    }
}

impl Graph {
    pub fn of(program: &Program, table: &Table) -> Result<Graph, Refusal> {
        let siblings = kept_siblings(program, table)?;
        let awaited = awaited(table)?;
        let mut lists = Lists { begins: filled(0, 1)?, all: Vec::new() };
        for (number, segment) in table.segments.iter().enumerate() {
            let all = &mut lists.all;
            match segment.before {
                None => {
                    let earlier = siblings[segment.task as usize].iter();
                    all.try_reserve(earlier.len() + 1)?;
                    all.extend(earlier.map(|sibling| table.tasks[*sibling as usize].last));
                    all.extend(table.tasks[segment.task as usize].creator);
                }
                Some(before) => {
                    all.try_reserve(awaited[number].len() + 2)?;
                    all.extend_from_slice(&awaited[number]);
                    all.push(before);
                    if let Closing::Creates(child) = table.segments[before as usize].closing {
                        let child = &table.tasks[child as usize];
                        all.extend(child.undeferred.then_some(child.last));
                    }
                }
            }
            push(&mut lists.begins, lists.all.len())?;
        }
        let costs = listed(table.segments.iter().map(|segment| segment.cost))?;
        Ok(Graph { costs, predecessors: lists })
    }

    pub fn len(&self) -> usize {
        self.costs.len()
    }

    pub fn segments(&self) -> std::ops::Range<u32> {
        0..self.costs.len() as u32
    }

    pub fn work(&self) -> u64 {
        self.costs.iter().sum()
    }

    pub fn edges(&self) -> usize {
        self.predecessors.all.len()
    }

    pub fn preds(&self, segment: u32) -> &[u32] {
        self.predecessors.of(segment)
    }

    /// For each segment those of which it is a predecessor.
    pub fn successors(&self) -> Result<Lists, Refusal> {
        let mut begins = filled(0, self.len() + 1)?;
        self.predecessors.all.iter().for_each(|pred| begins[*pred as usize + 1] += 1);
        for segment in 0..self.len() {
            begins[segment + 1] += begins[segment];
        }
        let mut next = listed(begins.iter().copied())?;
        let mut all = filled(0, self.edges())?;
        for segment in self.segments() {
            for pred in self.preds(segment) {
                all[next[*pred as usize]] = segment;
                next[*pred as usize] += 1;
            }
        }
        Ok(Lists { begins, all })
    }
}

/// For each segment the last segments of the tasks that it waits for, after a `taskwait` or the end of a group.
fn awaited(table: &Table) -> Result<Vec<Vec<u32>>, Refusal> {
    let mut awaited = filled(Vec::new(), table.segments.len())?;
    let mut since_wait = filled(Vec::new(), table.tasks.len())?;
    for (number, segment) in (0..).zip(&table.segments) {
        match segment.closing {
            Closing::EndsTask => {
                let task = &table.tasks[segment.task as usize];
                if let Some(after) = task.group {
                    push(&mut awaited[after as usize], number)?;
                }
                if let Some(parent) = task.parent {
                    push(&mut since_wait[parent as usize], number)?;
                }
            }
            Closing::Waits => awaited[number as usize + 1] = take(&mut since_wait[segment.task as usize]),
            Closing::Creates(_) | Closing::EndsGroup { .. } => {}
        }
    }
    Ok(awaited)
}
