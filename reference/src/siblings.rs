//! The earlier siblings after which each task is kept, by their generations at each name: none of a generation
//! conflicts there with another of it, and each conflicts with all of the one before.

use crate::cut::Table;
use crate::growth::{filled, listed, push};
use crate::program::{Item, Kind, Program};
use crate::refusal::Refusal;
use std::collections::HashMap;

/// At one name: the last siblings that share it, their kind, and the generation before.
#[derive(Default)]
struct Generations {
    kind: Kind,
    current: Vec<u32>,
    previous: Vec<u32>,
}

impl Generations {
    /// Adds a task; the generation before its own.
    fn enter(&mut self, task: u32, kind: Kind) -> Result<&[u32], Refusal> {
        if kind.conflicts(self.kind) {
            std::mem::swap(&mut self.current, &mut self.previous);
            self.current.clear();
            self.kind = kind;
        }
        push(&mut self.current, task)?;
        Ok(&self.previous)
    }
}

/// The names of a task's items, each with the one kind that all items on it act as.
fn kinds_by_name(items: &[Item]) -> Result<Vec<Item>, Refusal> {
    let mut kinds = listed(items.iter().copied())?;
    kinds.sort_unstable_by_key(|item| item.name);
    kinds.dedup_by(|item, first| {
        let is_same = item.name == first.name;
        if is_same && first.kind.conflicts(item.kind) {
            first.kind = Kind::InOut;
        }
        is_same
    });
    Ok(kinds)
}

/// For each task its kept siblings, ascending.
pub fn kept_siblings(program: &Program, table: &Table) -> Result<Vec<Vec<u32>>, Refusal> {
    // By parent and name.
    let mut generations: HashMap<_, Generations> = HashMap::new();
    // For each task the last one that is kept after it.
    let mut kept_by = filled(0, table.tasks.len())?;
    let mut kept = filled(Vec::new(), table.tasks.len())?;
    for (number, task) in (0..).zip(&table.tasks) {
        for Item { name, kind } in kinds_by_name(program.items_of(number))? {
            generations.try_reserve(1)?;
            for earlier in generations.entry((task.parent, name)).or_default().enter(number, kind)? {
                if kept_by[*earlier as usize] != number {
                    kept_by[*earlier as usize] = number;
                    push(&mut kept[number as usize], *earlier)?;
                }
            }
        }
        kept[number as usize].sort_unstable();
    }
    Ok(kept)
}
