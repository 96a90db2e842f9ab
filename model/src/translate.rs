//! Translation: a guide's blocks as instructions, with the phrases of the book.

use crate::guide::{Block, If, Statement};
use crate::phrases::Phrases;
use crate::program::{Instruction, Program};

pub fn program<'a>(guide: Block<'a>, phrases: Phrases<'a>) -> Program<'a> {
    let mut instructions = Vec::new();
    add_block(&mut instructions, guide);
    Program { phrases, instructions }
}

fn add_block<'a>(out: &mut Vec<Instruction<'a>>, block: Block<'a>) {
    for statement in block {
        match statement {
            Statement::Action(action) => out.push(Instruction::Action(action)),
            Statement::If(branch) => add_if(out, branch),
        }
    }
}

/// The if skips the true block and, where there is an `else` line, its goto;
/// the goto skips the else block.
fn add_if<'a>(out: &mut Vec<Instruction<'a>>, branch: If<'a>) {
    let if_place = out.len();
    let test = branch.test;
    out.push(Instruction::If { test, skip: 0 });
    add_block(out, branch.true_block);
    let mut skip = out.len() - (if_place + 1);
    if let Some(else_block) = branch.else_block {
        skip += 1;
        let goto_place = out.len();
        out.push(Instruction::Goto { skip: 0 });
        add_block(out, else_block);
        let skip = out.len() - (goto_place + 1);
        out[goto_place] = Instruction::Goto { skip };
    }
    out[if_place] = Instruction::If { test, skip };
}
