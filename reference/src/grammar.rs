//! The grammar of both versions: tokens to pieces, up to the first token that is wrong in its place.

use crate::growth::push;
use crate::limits::{Limits, MOST_COST, MOST_INDEX, MOST_LOOP_NESTING};
use crate::program::Kind;
use crate::refusal::{ensure, Refusal};
use crate::tokens::{Scanner, Token, Version};

/// The index of a location: a number, a variable, or both.
pub struct Index {
    /// Which loop has the variable, counted from the outermost.
    pub of_loop: Option<usize>,
    pub minus: bool,
    pub by: u64,
    pub line: usize,
}

/// A part of a text, with the line of its token. An index is known by its number.
pub enum Piece<'a> {
    /// The word `task`, an item, and the `{` behind the clauses.
    Task { line: usize },
    Item { kind: Kind, name: &'a [u8], index: Option<u32>, line: usize },
    TaskOpens { undeferred: bool, is_final: bool, line: usize },
    /// The word `taskgroup`, and its `{`.
    Group { line: usize },
    GroupOpens { line: usize },
    /// A loop, up to its `{`; its body has so many pieces.
    For { from: u64, to: u64, line: usize, length: usize },
    Work { cost: u64, line: usize },
    Wait { line: usize },
    EndTask,
    EndGroup,
    EndFor,
}

/// An open block: the piece that opened it, by its number, and the line of its `{`.
struct Block {
    opening: usize,
    line: usize,
}

pub struct Parser<'a> {
    scanner: Scanner<'a>,
    version: Version,
    most_nesting: usize,
    blocks: Vec<Block>,
    /// Those of the open loops, the outermost first.
    variables: Vec<&'a [u8]>,
    pub pieces: Vec<Piece<'a>>,
    pub indexes: Vec<Index>,
}

impl<'a> Parser<'a> {
    pub fn new(text: &'a [u8], version: Version, limits: &Limits) -> Parser<'a> {
        let (most_bytes, most_nesting) = match version {
            Version::One => (limits.solid, limits.nesting),
            Version::Two => (usize::MAX, MOST_LOOP_NESTING),
        };
        let scanner = Scanner::new(text, version, most_bytes);
        let (blocks, variables, pieces, indexes) = (Vec::new(), Vec::new(), Vec::new(), Vec::new());
        Parser { scanner, version, most_nesting, blocks, variables, pieces, indexes }
    }

    /// Finds the pieces of the text, up to its first wrong token.
    pub fn parse(&mut self) -> Result<(), Refusal> {
        self.header()?;
        while let Some(token) = self.scanner.next()? {
            self.statement(token)?;
        }
        match self.blocks.last() {
            Some(block) => Err(Refusal::Line(block.line, "Unclosed")),
            None => Ok(()),
        }
    }

    fn header(&mut self) -> Result<(), Refusal> {
        let number = if self.version == Version::One { 1 } else { 2 };
        let word = self.token("BadHeader")?;
        ensure(word.text == b"omptasks", || word.fault("BadHeader"))?;
        let version = self.token("BadHeader")?;
        ensure(version.is_number() && version.value() == number, || version.fault("BadHeader"))
    }

    /// The next token, or this fault where the text ends.
    fn token(&mut self, at_end: &'static str) -> Result<Token<'a>, Refusal> {
        let token = self.scanner.next()?;
        token.ok_or(Refusal::Line(self.scanner.line, at_end))
    }

    fn sign(&mut self, sign: &[u8]) -> Result<Token<'a>, Refusal> {
        let token = self.token("BadWord")?;
        if token.text == sign { Ok(token) } else { Err(token.fault("BadWord")) }
    }

    fn word(&mut self) -> Result<Token<'a>, Refusal> {
        let token = self.token("BadWord")?;
        if token.is_word() { Ok(token) } else { Err(token.fault("BadWord")) }
    }

    fn number(&mut self, most: u64) -> Result<Token<'a>, Refusal> {
        let token = self.token("BadWord")?;
        ensure(token.is_number(), || token.fault("BadWord"))?;
        ensure(token.value() <= most, || token.fault("BadNumber"))?;
        Ok(token)
    }

    fn statement(&mut self, token: Token<'a>) -> Result<(), Refusal> {
        let line = token.line;
        match token.text {
            b"work" => {
                let cost = self.number(MOST_COST)?;
                push(&mut self.pieces, Piece::Work { cost: cost.value(), line: cost.line })?;
            }
            b"task" => {
                push(&mut self.pieces, Piece::Task { line })?;
                self.clauses()?;
            }
            b"taskwait" => push(&mut self.pieces, Piece::Wait { line })?,
            b"taskgroup" => {
                push(&mut self.pieces, Piece::Group { line })?;
                let brace = self.sign(b"{")?;
                self.open(brace, Piece::GroupOpens { line: brace.line })?;
            }
            b"for" if self.version == Version::Two => self.begin_loop(line)?,
            b"}" => self.close(token)?,
            _ => return Err(token.fault("BadWord")),
        }
        Ok(())
    }

    fn open(&mut self, brace: Token<'a>, piece: Piece<'a>) -> Result<(), Refusal> {
        ensure(self.blocks.len() < self.most_nesting, || brace.fault("TooDeep"))?;
        push(&mut self.blocks, Block { opening: self.pieces.len(), line: brace.line })?;
        push(&mut self.pieces, piece)
    }

    fn close(&mut self, brace: Token<'a>) -> Result<(), Refusal> {
        let block = self.blocks.pop().ok_or(brace.fault("Unopened"))?;
        let pieces = self.pieces.len() - block.opening - 1;
        let end = match &mut self.pieces[block.opening] {
            Piece::For { length, .. } => {
                *length = pieces;
                self.variables.pop();
                Piece::EndFor
            }
            Piece::GroupOpens { .. } => Piece::EndGroup,
            _ => Piece::EndTask,
        };
        push(&mut self.pieces, end)
    }

    fn begin_loop(&mut self, line: usize) -> Result<(), Refusal> {
        let variable = self.word()?;
        ensure(!self.variables.contains(&variable.text), || variable.fault("BadWord"))?;
        let (from, to) = (self.number(MOST_INDEX)?.value(), self.number(MOST_INDEX)?.value());
        let brace = self.sign(b"{")?;
        push(&mut self.variables, variable.text)?;
        self.open(brace, Piece::For { from, to, line, length: 0 })
    }

    /// The clauses of a task, up to its `{`.
    fn clauses(&mut self) -> Result<(), Refusal> {
        let (mut if_value, mut final_value) = (None, None);
        loop {
            let token = self.token("BadWord")?;
            match token.text {
                b"{" => {
                    let (undeferred, is_final) = (if_value == Some(0), final_value == Some(1));
                    return self.open(token, Piece::TaskOpens { undeferred, is_final, line: token.line });
                }
                b"if" if if_value.is_none() => if_value = Some(self.zero_or_one()?),
                b"final" if final_value.is_none() && self.version == Version::Two => {
                    final_value = Some(self.zero_or_one()?);
                }
                b"depend" => self.items()?,
                _ => return Err(token.fault("BadWord")),
            }
        }
    }

    fn zero_or_one(&mut self) -> Result<u64, Refusal> {
        self.sign(b"(")?;
        let value = self.number(1)?.value();
        self.sign(b")")?;
        Ok(value)
    }

    /// The items of a clause, from its `(` on.
    fn items(&mut self) -> Result<(), Refusal> {
        self.sign(b"(")?;
        let word = self.token("BadWord")?;
        let kind = match word.text {
            b"in" => Kind::In,
            b"out" => Kind::Out,
            b"inout" => Kind::InOut,
            b"inoutset" => Kind::InOutSet,
            _ => return Err(word.fault("BadWord")),
        };
        self.sign(b":")?;
        loop {
            let name = self.word()?;
            push(&mut self.pieces, Piece::Item { kind, name: name.text, index: None, line: name.line })?;
            let mut next = self.token("BadWord")?;
            if next.text == b"[" {
                let found = self.index()?;
                push(&mut self.indexes, found)?;
                if let Some(Piece::Item { index, .. }) = self.pieces.last_mut() {
                    *index = Some(self.indexes.len() as u32 - 1);
                }
                next = self.token("BadWord")?;
            }
            match next.text {
                b"," => {}
                b")" => return Ok(()),
                _ => return Err(next.fault("BadWord")),
            }
        }
    }

    /// The index of a location, up to its `]`.
    fn index(&mut self) -> Result<Index, Refusal> {
        let first = self.token("BadWord")?;
        let mut index = Index { of_loop: None, minus: first.text == b"-", by: 0, line: first.line };
        if index.minus {
            index.by = self.number(u64::MAX)?.value();
        } else if first.is_number() {
            index.by = first.value();
        } else {
            let of_loop = self.variables.iter().position(|variable| *variable == first.text);
            index.of_loop = Some(of_loop.ok_or(first.fault("BadWord"))?);
            let sign = self.token("BadWord")?;
            match sign.text {
                b"]" => return Ok(index),
                b"+" | b"-" => index.minus = sign.text == b"-",
                _ => return Err(sign.fault("BadWord")),
            }
            index.by = self.number(u64::MAX)?.value();
        }
        self.sign(b"]")?;
        Ok(index)
    }
}
