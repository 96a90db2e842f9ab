//! The run of a plate's instructions.

use crate::machine::{Machine, Outcome, Record};
use crate::program::{target, Instruction, Program};

pub fn run(program: &Program, answers: &[i32]) -> Record {
    let mut machine = Machine::new(answers);
    let mut at = 0;
    while let Some(instruction) = program.instructions.get(at) {
        machine.steps += 1;
        let next = match instruction {
            Instruction::Action(action) => match machine.act(action) {
                Some(outcome) => return machine.finish(outcome),
                None => at + 1,
            },
            Instruction::Goto { skip } => target(at, *skip),
            Instruction::If { test, .. } if machine.holds(test) => at + 1,
            Instruction::If { skip, .. } => target(at, *skip),
        };
        assert!(next > at, "a run only goes forward, so it ends");
        at = next;
    }
    machine.finish(Outcome::End)
}
