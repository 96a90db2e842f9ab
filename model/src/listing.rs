//! Listings: a plate's instructions as lines.

use crate::action::{Action, Test};
use crate::limits::{MAX_LISTING, MAX_SKIP};
use crate::lines::{Line, Lines, Shared};
use crate::number;
use crate::phrases::Phrases;
use crate::program::{target, Instruction, Program};
use crate::refusal::{cause, refuse, Refusal};
use crate::text::LF;

/// Reads a listing: causes 1 to 6, 8 and 9.
pub fn read<'a>(listing: &'a [u8], book: &'a [u8]) -> Result<Program<'a>, Refusal> {
    let mut phrases = Phrases::of_book(book)?;
    if listing.len() > MAX_LISTING {
        return refuse(cause::TOO_LONG, 0);
    }
    let mut lines = Lines::new(listing);
    let mut instructions = Vec::new();
    let mut count = 0;
    while let Some(line) = lines.next_line()? {
        let instruction = match *line.fields {
            [b"goto", skip] => Instruction::Goto { skip: read_skip(&line, skip)? },
            [b"if", register, op, constant, skip] => Instruction::If {
                test: line.test(register, op, constant)?,
                skip: read_skip(&line, skip)?,
            },
            _ => match line.shared()? {
                Shared::Phrase(text) => {
                    // Late, repeated or the 33rd. Every line of another kind is an instruction.
                    if count > 0 || !phrases.add_own(text) {
                        return line.refuse(cause::OWN_PHRASE);
                    }
                    continue;
                }
                Shared::Action(action) => Instruction::Action(action),
            },
        };
        line.count_instruction(&mut count)?;
        instructions.push(instruction);
    }
    check_skips(&instructions, phrases.own().len())?;
    Ok(Program { phrases, instructions })
}

fn read_skip(line: &Line, field: &[u8]) -> Result<usize, Refusal> {
    let skip = line.number(field, 0, MAX_SKIP as i32)?;
    Ok(skip as usize)
}

/// A skip past the end is 8. The instructions' lines follow the phrase lines.
fn check_skips(instructions: &[Instruction], phrase_lines: usize) -> Result<(), Refusal> {
    for (at, instruction) in instructions.iter().enumerate() {
        match instruction.skip() {
            Some(skip) if target(at, skip) > instructions.len() => {
                return refuse(cause::SKIP, phrase_lines + at + 1);
            }
            _ => {}
        }
    }
    Ok(())
}

pub fn write(program: &Program) -> Vec<u8> {
    let mut out = Vec::new();
    for text in program.phrases.own() {
        out.extend_from_slice(b"phrase,");
        write_text(&mut out, text);
        out.push(LF);
    }
    for instruction in &program.instructions {
        match instruction {
            Instruction::Action(action) => write_action(&mut out, action),
            Instruction::Goto { skip } => {
                out.extend_from_slice(b"goto,");
                write_skip(&mut out, *skip);
            }
            Instruction::If { test, skip } => {
                write_test(&mut out, test);
                write_skip(&mut out, *skip);
            }
        }
        out.push(LF);
    }
    out
}

fn write_action(out: &mut Vec<u8>, action: &Action) {
    match action {
        Action::Input { register, text } => {
            out.extend_from_slice(b"input,");
            write_register(out, *register);
            write_text(out, text);
        }
        Action::Inputs { register, text, options } => {
            out.extend_from_slice(b"inputs,");
            write_register(out, *register);
            write_text(out, text);
            for option in options {
                out.push(b',');
                write_text(out, option);
            }
        }
        Action::Print { text } => {
            out.extend_from_slice(b"print,");
            write_text(out, text);
        }
        Action::Printex { text } => {
            out.extend_from_slice(b"printex,");
            write_text(out, text);
        }
    }
}

fn write_test(out: &mut Vec<u8>, test: &Test) {
    out.extend_from_slice(b"if,");
    write_register(out, test.register);
    out.extend_from_slice(test.op.name());
    out.push(b',');
    number::write(out, test.constant);
    out.push(b',');
}

/// A register is never the last field: its comma is written with it.
fn write_register(out: &mut Vec<u8>, register: u8) {
    number::write(out, i32::from(register));
    out.push(b',');
}

fn write_skip(out: &mut Vec<u8>, skip: usize) {
    number::write(out, skip as i32);
}

fn write_text(out: &mut Vec<u8>, text: &[u8]) {
    out.extend_from_slice(text);
}
