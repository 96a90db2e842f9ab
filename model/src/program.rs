//! The instructions of a plate or listing, with the phrases.

use crate::action::{Action, Test};
use crate::phrases::Phrases;

#[derive(Clone, Debug, PartialEq, Eq)]
pub enum Instruction<'a> {
    Action(Action<'a>),
    Goto { skip: usize },
    If { test: Test, skip: usize },
}

pub struct Program<'a> {
    pub phrases: Phrases<'a>,
    pub instructions: Vec<Instruction<'a>>,
}

impl Instruction<'_> {
    pub fn skip(&self) -> Option<usize> {
        match self {
            Instruction::Action(_) => None,
            Instruction::Goto { skip } | Instruction::If { skip, .. } => Some(*skip),
        }
    }
}

/// Where instruction `at` goes on to if it skips.
pub fn target(at: usize, skip: usize) -> usize {
    at + 1 + skip
}
