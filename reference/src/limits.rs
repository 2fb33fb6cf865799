//! The limits of the texts: those of the ten commands, and those of texts of any size.

pub const MOST_TEXT_BYTES: usize = 4_194_304;
pub const MOST_WORD_BYTES: usize = 31;
pub const MOST_COST: u64 = 1_000_000_000_000;
pub const MOST_WORK: u64 = 1_000_000_000_000_000;
pub const MOST_MOMENT: u64 = 1_000_000_000_000_000_000;
pub const MOST_NUMBER: u64 = u32::MAX as u64;
/// Of an index and of a bound of a loop.
pub const MOST_INDEX: u64 = 1_000_000;
/// Open blocks of a text of version 2.
pub const MOST_LOOP_NESTING: usize = 64;
/// Segments of a table; more are out of memory.
pub const MOST_ROWS: usize = 4_000_000_000;
pub const MOST_THREADS: u32 = 1_024;
pub const MOST_WORKERS: u32 = 64;

pub struct Limits {
    /// Bytes of the input, and of one of its lines.
    pub input: usize,
    pub line: usize,
    /// Bytes of a text of version 1; one of version 2 has at most `MOST_TEXT_BYTES`.
    pub text: usize,
    /// Bytes outside blanks and comments: of a text of version 1, and of the canonical text of one of version 2.
    pub solid: usize,
    /// Open blocks of a text of version 1.
    pub nesting: usize,
    pub tasks: usize,
    pub segments: usize,
    /// Depend items of a task.
    pub task_items: usize,
    /// Depend items of all tasks in version 1, and locations in version 2.
    pub items: usize,
    /// Turns of all loops, and lines of the canonical text behind its header.
    pub turns: u64,
    pub lines: usize,
    /// Bytes of a claim, and events of a replay document.
    pub claim: usize,
    pub events: usize,
}

pub const COMMANDS: Limits = Limits {
    input: 8_388_608,
    line: usize::MAX,
    text: MOST_TEXT_BYTES,
    solid: 1_048_576,
    nesting: 64,
    tasks: 4_096,
    segments: 16_384,
    task_items: 32,
    items: usize::MAX,
    turns: 65_536,
    lines: usize::MAX,
    claim: 4_194_304,
    events: 65_536,
};

pub const ANY_SIZE: Limits = Limits {
    input: 9_223_372_036_854_775_806,
    line: 4_000_000_000,
    text: usize::MAX,
    solid: usize::MAX,
    nesting: 1_048_576,
    tasks: usize::MAX,
    segments: usize::MAX,
    task_items: 65_536,
    items: 4_294_967_294,
    turns: 4_000_000_000,
    lines: 4_000_000_000,
    claim: usize::MAX,
    events: 8_000_000_000,
};
