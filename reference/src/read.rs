//! The program of a text of either version, or the first fault of the text.

use crate::grammar::{Index, Parser, Piece};
use crate::growth::{boxed, push};
use crate::limits::{Limits, MOST_INDEX, MOST_ROWS, MOST_TEXT_BYTES, MOST_WORK};
use crate::program::{Clauses, Item, Kind, Mark, Program};
use crate::refusal::{ensure, Refusal};
use crate::tokens::{Scanner, Version};
use std::collections::HashMap;
use std::io::Write;

/// Whether the header of version 2 stands in the first bytes.
fn is_version_two(text: &[u8]) -> bool {
    let mut scanner = Scanner::new(&text[..text.len().min(MOST_TEXT_BYTES)], Version::One, usize::MAX);
    match (scanner.next(), scanner.next()) {
        (Ok(Some(word)), Ok(Some(number))) => word.text == b"omptasks" && number.is_number() && number.value() == 2,
        _ => false,
    }
}

pub fn read(text: &[u8], limits: &Limits) -> Result<Program, Refusal> {
    let version = if is_version_two(text) { Version::Two } else { Version::One };
    let most = if version == Version::Two { MOST_TEXT_BYTES } else { limits.text };
    ensure(text.len() <= most, || Refusal::Line(1, "TooLong"))?;
    let mut parser = Parser::new(text, version, limits);
    let parsed = parser.parse();
    if version == Version::Two {
        parsed.clone()?;
    }
    // In version 1 a limit that a piece passes comes before what is wrong with a later token.
    let mut builder = Builder::new(version, limits, &parser.indexes)?;
    builder.expand(&parser.pieces)?;
    parsed?;
    Ok(builder.program)
}

/// Of an index with its brackets.
const MOST_INDEX_BYTES: usize = 16;

struct Builder<'a> {
    limits: &'a Limits,
    indexes: &'a [Index],
    program: Program,
    numbers: HashMap<Box<[u8]>, u32>,
    /// Those of the variables of the loops around what comes next, the outermost first.
    values: Vec<u64>,
    /// For each open task whether the tasks in it are undeferred because of `final`.
    finals: Vec<bool>,
    counts: Counts,
    location: Vec<u8>,
}

/// What there is so far beyond the root and the header.
#[derive(Default)]
struct Counts {
    turns: u64,
    segments: usize,
    work: u64,
    open_blocks: usize,
    /// Bytes of the canonical text outside blanks, without the `}` of blocks that are open.
    solid: usize,
}

impl<'a> Builder<'a> {
    fn new(version: Version, limits: &'a Limits, indexes: &'a [Index]) -> Result<Builder<'a>, Refusal> {
        let (program, counts) = (Program::new(version)?, Counts::default());
        let (numbers, values, finals, location) = (HashMap::new(), Vec::new(), Vec::new(), Vec::new());
        Ok(Builder { limits, indexes, program, numbers, values, finals, counts, location })
    }

    /// Takes the expansion of pieces: the body of a loop comes once for each value of its variable.
    fn expand(&mut self, pieces: &[Piece]) -> Result<(), Refusal> {
        let mut next = 0;
        while next < pieces.len() {
            if let Piece::For { from, to, line, length } = pieces[next] {
                let body = &pieces[next + 1..next + 1 + length];
                for value in from..=to {
                    self.counts.turns += 1;
                    ensure(self.counts.turns <= self.limits.turns, || Refusal::Line(line, "TooManyTurns"))?;
                    push(&mut self.values, value)?;
                    self.expand(body)?;
                    self.values.pop();
                }
                next += 1 + length;
            }
            self.take(&pieces[next])?;
            next += 1;
        }
        Ok(())
    }

    fn take(&mut self, piece: &Piece) -> Result<(), Refusal> {
        match piece {
            Piece::Task { line } => self.add_segments(2, true, *line),
            Piece::Item { kind, name, index, line } => self.item(*kind, name, index.map(|number| &self.indexes[number as usize]), *line),
            Piece::TaskOpens { undeferred, is_final, line } => self.open_task(*undeferred, *is_final, *line),
            Piece::Group { line } => self.add_segments(1, false, *line),
            Piece::GroupOpens { line } => self.add(Mark::Group, *line),
            Piece::EndTask => self.close(Mark::EndTask),
            Piece::EndGroup => self.close(Mark::EndGroup),
            Piece::Work { cost, line } => self.add_work(*cost, *line),
            Piece::Wait { line } => {
                self.add_segments(1, false, *line)?;
                self.add(Mark::Wait, *line)
            }
            Piece::For { .. } | Piece::EndFor => Ok(()),
        }
    }

    /// Counts the segments that a word brings.
    fn add_segments(&mut self, more: usize, is_task: bool, line: usize) -> Result<(), Refusal> {
        let has_room = !is_task || self.program.tasks.len() <= self.limits.tasks;
        ensure(has_room, || Refusal::Line(line, "TooManyTasks"))?;
        self.counts.segments += more;
        ensure(self.counts.segments < self.limits.segments, || Refusal::Line(line, "TooManySegments"))?;
        ensure(self.counts.segments < MOST_ROWS, || Refusal::OutOfMemory)
    }

    /// Adds an item to the task that comes.
    fn item(&mut self, kind: Kind, name: &[u8], index: Option<&Index>, line: usize) -> Result<(), Refusal> {
        let all = match self.program.version {
            Version::One => self.program.items.len(),
            Version::Two => self.program.names.len(),
        };
        let has_room = self.program.items.len() - self.first_item() < self.limits.task_items && all < self.limits.items;
        ensure(has_room, || Refusal::Line(line, "TooManyItems"))?;
        self.location.clear();
        self.location.try_reserve(name.len() + MOST_INDEX_BYTES)?;
        self.location.extend_from_slice(name);
        if let Some(index) = index {
            self.add_index(index)?;
        }
        let name = self.number_of_location()?;
        push(&mut self.program.items, Item { kind, name })
    }

    /// Where the items of the task that comes begin.
    fn first_item(&self) -> usize {
        self.program.tasks.last().map_or(0, |task| task.items.end)
    }

    fn add_index(&mut self, index: &Index) -> Result<(), Refusal> {
        let value = index.of_loop.map_or(0, |number| self.values[number]);
        let size = if index.minus { value.abs_diff(index.by) } else { value.saturating_add(index.by) };
        ensure(size <= MOST_INDEX, || Refusal::Line(index.line, "BadNumber"))?;
        let sign = if index.minus && value < index.by { "-" } else { "" };
        write!(self.location, "[{sign}{size}]").expect("there is room");
        Ok(())
    }

    fn number_of_location(&mut self) -> Result<u32, Refusal> {
        if let Some(number) = self.numbers.get(self.location.as_slice()) {
            return Ok(*number);
        }
        let number = self.program.names.len() as u32;
        self.numbers.try_reserve(1)?;
        self.numbers.insert(boxed(&self.location)?, number);
        push(&mut self.program.names, boxed(&self.location)?)?;
        Ok(number)
    }

    fn open_task(&mut self, undeferred: bool, is_final: bool, line: usize) -> Result<(), Refusal> {
        let in_final = self.finals.last() == Some(&true);
        let items = self.first_item()..self.program.items.len();
        let number = self.program.tasks.len() as u32;
        push(&mut self.program.tasks, Clauses { undeferred: undeferred || in_final, items })?;
        push(&mut self.finals, in_final || is_final)?;
        self.add(Mark::Task(number), line)
    }

    fn close(&mut self, mark: Mark) -> Result<(), Refusal> {
        if mark == Mark::EndTask {
            self.finals.pop();
        }
        self.counts.open_blocks -= 1;
        self.counts.solid += 1;
        push(&mut self.program.marks, mark)
    }

    fn add_work(&mut self, cost: u64, line: usize) -> Result<(), Refusal> {
        self.counts.work += cost;
        ensure(self.counts.work <= MOST_WORK, || Refusal::Line(line, "WorkTooLarge"))?;
        self.add(Mark::Work(cost), line)
    }

    /// Adds a mark, unless the canonical text of version 2 is too long with it and a `}` for each open block.
    fn add(&mut self, mark: Mark, line: usize) -> Result<(), Refusal> {
        push(&mut self.program.marks, mark)?;
        self.counts.open_blocks += usize::from(matches!(mark, Mark::Task(_) | Mark::Group));
        if self.program.version == Version::One {
            return Ok(());
        }
        if self.limits.solid < usize::MAX {
            self.counts.solid += self.program.solid_bytes(mark)?;
        }
        let (braces, lines) = (self.counts.open_blocks, self.program.marks.len() + self.counts.open_blocks);
        let solid = "omptasks2".len() + self.counts.solid + braces;
        ensure(solid <= self.limits.solid && lines <= self.limits.lines, || Refusal::Line(line, "TooLong"))
    }
}

#[cfg(test)]
mod tests {
    use super::read;
    use crate::limits::{ANY_SIZE, COMMANDS};

    fn fault(text: &str) -> String {
        read(text.as_bytes(), &COMMANDS).err().map_or(String::new(), |fault| fault.to_string())
    }

    #[test]
    fn first_faults() {
        let rows = [
            ("", "line 1: BadHeader"),
            ("omptasks 3", "line 1: BadHeader"),
            ("omptasks 1\n}", "line 2: Unopened"),
            ("omptasks 1\ntask\n{ task\n{\n", "line 4: Unclosed"),
            ("omptasks 1\nwork 1a", "line 2: BadNumber"),
            ("omptasks 1 work 1000000000001", "line 1: BadNumber"),
            ("omptasks 1 task if(0) if(0) { }", "line 1: BadWord"),
            ("omptasks 1 for i 0 1 { }", "line 1: BadWord"),
            ("omptasks 1 task depend(in: a[1]) { }", "line 1: BadByte"),
            ("omptasks 2 task depend(in:\na[\nk$", "line 3: BadWord"),
            ("omptasks 2 for i 0 1 { for i 0 1 { } }", "line 1: BadWord"),
            ("omptasks 2 for i 0 1000000 {\nfor j 1 0 { work 1 } }", "line 1: TooManyTurns"),
            ("omptasks 2 for i 1 2 { task depend(in: x[\ni+999999\n]) { } }", "line 2: BadNumber"),
            ("omptasks 2 for i 1 0 { task depend(in: x[9999999]) { } }", ""),
        ];
        for (text, wanted) in rows {
            assert_eq!(fault(text), wanted, "{text}");
        }
    }

    #[test]
    fn limits_of_the_commands() {
        let tasks = "task { }\n".repeat(4_097);
        assert_eq!(fault(&format!("omptasks 1\n{tasks}")), "line 4098: TooManyTasks");
        assert!(read(format!("omptasks 1\n{tasks}").as_bytes(), &ANY_SIZE).is_ok());
        assert_eq!(fault(&format!("omptasks 1\n{}", "taskwait\n".repeat(16_384))), "line 16385: TooManySegments");
        assert_eq!(fault(&format!("omptasks 1\n{}", "taskgroup {\n".repeat(65))), "line 66: TooDeep");
        assert_eq!(fault(&format!("omptasks 1 task depend(in: a{}) {{ }}", ", a".repeat(32))), "line 1: TooManyItems");
        assert_eq!(fault(&"#".repeat(4_194_305)), "line 1: TooLong");
        assert_eq!(fault(&format!("omptasks 1\n{}", "work 1000000000000\n".repeat(1_001))), "line 1002: WorkTooLarge");
        assert_eq!(fault("omptasks 2\nfor i 1 65536 { work 1000000000 work 1000000000 }"), "line 2: TooLong");
    }

    #[test]
    fn loops_are_their_turns() {
        let text = "omptasks 2 for i 1 2 { task final(1) depend(in: x[i-1], x[i-2], y) { task { work 04 } } } taskwait";
        let shown = read(text.as_bytes(), &COMMANDS).unwrap_or_else(|fault| panic!("{fault}")).canonical_text();
        let one = |items| format!("task depend(in: {items}, y) {{\ntask if(0) {{\nwork 4\n}}\n}}\n");
        let wanted = format!("omptasks 2\n{}{}taskwait\n", one("x[0], x[-1]"), one("x[1], x[0]"));
        assert_eq!(String::from_utf8_lossy(&shown), wanted);
    }
}
