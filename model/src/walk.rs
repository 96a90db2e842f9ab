//! The walk: a guide run on its blocks.

use crate::guide::{Block, Statement};
use crate::machine::{Machine, Outcome, Record};

pub fn walk(guide: &Block, answers: &[i32]) -> Record {
    let mut machine = Machine::new(answers);
    let outcome = block(guide, &mut machine).unwrap_or(Outcome::End);
    machine.finish(outcome)
}

/// Runs statements in order, and says how the walk ends if it ends in them.
fn block(statements: &Block, machine: &mut Machine) -> Option<Outcome> {
    statements.iter().find_map(|each| statement(each, machine))
}

fn statement(statement: &Statement, machine: &mut Machine) -> Option<Outcome> {
    machine.steps += 1;
    let branch = match statement {
        Statement::Action(action) => return machine.act(action),
        Statement::If(branch) => branch,
    };
    if machine.holds(&branch.test) {
        let ended = block(&branch.true_block, machine);
        if ended.is_none() && branch.else_block.is_some() {
            // Leaving a true block at its end, before an `else` line.
            machine.steps += 1;
        }
        ended
    } else {
        let else_block = branch.else_block.as_ref()?;
        block(else_block, machine)
    }
}
