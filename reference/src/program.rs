//! A program: the flat list of its marks, and its canonical text.

use crate::growth::push;
use crate::limits::MOST_WORD_BYTES;
use crate::refusal::Refusal;
use crate::tokens::Version;
use std::io::Write;
use std::ops::Range;

/// Of a depend item in the canonical text: ` depend(inoutset: `, its name, its index and `)`.
const MOST_BYTES_OF_ITEM: usize = MOST_WORD_BYTES + 40;

#[derive(Clone, Copy, Debug, Default, PartialEq, Eq)]
pub enum Kind {
    In,
    Out,
    #[default]
    InOut,
    InOutSet,
}

/// A depend item, with the number of its name.
#[derive(Clone, Copy, Debug, PartialEq, Eq)]
pub struct Item {
    pub kind: Kind,
    pub name: u32,
}

/// A statement of one word, or where a task or a group begins or ends.
#[derive(Clone, Copy, Debug, PartialEq, Eq)]
pub enum Mark {
    Work(u64),
    /// A task, by its number.
    Task(u32),
    EndTask,
    Wait,
    Group,
    EndGroup,
}

/// What the clauses of a task say. Its items are a range of the program's.
pub struct Clauses {
    pub undeferred: bool,
    pub items: Range<usize>,
}

pub struct Program {
    pub version: Version,
    pub marks: Vec<Mark>,
    /// By number; the root is task 0.
    pub tasks: Vec<Clauses>,
    pub items: Vec<Item>,
    /// By number, in the order of their first mention.
    pub names: Vec<Box<[u8]>>,
}

impl Kind {
    /// Whether items of these kinds and of one name conflict.
    pub fn conflicts(self, other: Kind) -> bool {
        self != other || !matches!(self, Kind::In | Kind::InOutSet)
    }

    fn text(self) -> &'static [u8] {
        match self {
            Kind::In => b"in",
            Kind::Out => b"out",
            Kind::InOut => b"inout",
            Kind::InOutSet => b"inoutset",
        }
    }
}

impl Program {
    pub fn new(version: Version) -> Result<Program, Refusal> {
        let mut tasks = Vec::new();
        push(&mut tasks, Clauses { undeferred: false, items: 0..0 })?;
        Ok(Program { version, marks: Vec::new(), tasks, items: Vec::new(), names: Vec::new() })
    }

    pub fn items_of(&self, task: u32) -> &[Item] {
        &self.items[self.tasks[task as usize].items.clone()]
    }

    pub fn canonical_text(&self) -> Vec<u8> {
        let mut text = match self.version {
            Version::One => b"omptasks 1\n".to_vec(),
            Version::Two => b"omptasks 2\n".to_vec(),
        };
        for mark in &self.marks {
            self.print_line(*mark, &mut text);
        }
        text
    }

    /// How many bytes of the line of a mark are no blanks.
    pub fn solid_bytes(&self, mark: Mark) -> Result<usize, Refusal> {
        let items = if let Mark::Task(number) = mark { self.items_of(number).len() } else { 0 };
        let mut text = Vec::new();
        text.try_reserve(MOST_BYTES_OF_ITEM * (2 + items))?;
        self.print_line(mark, &mut text);
        Ok(text.iter().filter(|byte| !b" \n".contains(byte)).count())
    }

    /// The line of a mark in the canonical text.
    pub fn print_line(&self, mark: Mark, text: &mut Vec<u8>) {
        match mark {
            Mark::Work(cost) => write!(text, "work {cost}").expect("memory takes it"),
            Mark::Task(number) => self.print_task(number, text),
            Mark::Wait => text.extend_from_slice(b"taskwait"),
            Mark::Group => text.extend_from_slice(b"taskgroup {"),
            Mark::EndTask | Mark::EndGroup => text.push(b'}'),
        }
        text.push(b'\n');
    }

    fn print_task(&self, number: u32, text: &mut Vec<u8>) {
        text.extend_from_slice(b"task");
        if self.tasks[number as usize].undeferred {
            text.extend_from_slice(b" if(0)");
        }
        let mut before = None;
        for item in self.items_of(number) {
            if before == Some(item.kind) {
                text.extend_from_slice(b", ");
            } else {
                text.extend_from_slice(if before.is_some() { b") depend(" } else { b" depend(" });
                text.extend_from_slice(item.kind.text());
                text.extend_from_slice(b": ");
            }
            text.extend_from_slice(&self.names[item.name as usize]);
            before = Some(item.kind);
        }
        text.extend_from_slice(if before.is_some() { b") {" } else { b" {" });
    }
}
