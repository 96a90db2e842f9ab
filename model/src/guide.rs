//! A guide as nested blocks of statements. It has no own phrases.

use crate::action::{Action, Test};
use crate::limits::{MAX_GUIDE, MAX_LEVELS};
use crate::lines::{Line, Lines, Shared};
use crate::refusal::{cause, refuse, Refusal};
use std::mem;

pub type Block<'a> = Vec<Statement<'a>>;

pub enum Statement<'a> {
    Action(Action<'a>),
    If(If<'a>),
}

pub struct If<'a> {
    pub test: Test,
    pub true_block: Block<'a>,
    /// None without an `else` line.
    pub else_block: Option<Block<'a>>,
}

/// Reads a guide: causes 2 to 7 and 9.
pub fn read(guide: &[u8]) -> Result<Block<'_>, Refusal> {
    if guide.len() > MAX_GUIDE {
        return refuse(cause::TOO_LONG, 0);
    }
    let mut lines = Lines::new(guide);
    let mut blocks = OpenBlocks::default();
    let mut instructions = 0;
    while let Some(line) = lines.next_line()? {
        match *line.fields {
            [b"if", register, op, constant] => {
                let test = line.test(register, op, constant)?;
                blocks.open(&line, test)?;
            }
            [b"else"] => blocks.start_else(&line)?,
            [b"fi"] => {
                blocks.close(&line)?;
                continue;
            }
            _ => match line.shared()? {
                Shared::Phrase(_) => return line.refuse(cause::OWN_PHRASE),
                Shared::Action(action) => blocks.current.push(Statement::Action(action)),
            },
        }
        line.count_instruction(&mut instructions)?;
    }
    blocks.finish()
}

/// The block that statements are added to, and the ifs around it.
#[derive(Default)]
struct OpenBlocks<'a> {
    current: Block<'a>,
    ifs: Vec<OpenIf<'a>>,
}

struct OpenIf<'a> {
    line: usize,
    test: Test,
    /// The statements before this if, in its own block.
    before: Block<'a>,
    /// The true block, once the `else` line is met.
    true_block: Option<Block<'a>>,
}

impl<'a> OpenBlocks<'a> {
    fn open(&mut self, line: &Line, test: Test) -> Result<(), Refusal> {
        if self.ifs.len() == MAX_LEVELS {
            return line.refuse(cause::NESTING);
        }
        self.ifs.push(OpenIf {
            line: line.number,
            test,
            before: mem::take(&mut self.current),
            true_block: None,
        });
        Ok(())
    }

    fn start_else(&mut self, line: &Line) -> Result<(), Refusal> {
        match self.ifs.last_mut() {
            Some(open) if open.true_block.is_none() => {
                open.true_block = Some(mem::take(&mut self.current));
                Ok(())
            }
            _ => line.refuse(cause::NESTING),
        }
    }

    fn close(&mut self, line: &Line) -> Result<(), Refusal> {
        let Some(open) = self.ifs.pop() else {
            return line.refuse(cause::NESTING);
        };
        let last = mem::replace(&mut self.current, open.before);
        let (true_block, else_block) = match open.true_block {
            None => (last, None),
            Some(true_block) => (true_block, Some(last)),
        };
        self.current.push(Statement::If(If { test: open.test, true_block, else_block }));
        Ok(())
    }

    /// The guide's block; an if left open is 7 at the innermost one's line.
    fn finish(self) -> Result<Block<'a>, Refusal> {
        match self.ifs.last() {
            Some(open) => refuse(cause::NESTING, open.line),
            None => Ok(self.current),
        }
    }
}
