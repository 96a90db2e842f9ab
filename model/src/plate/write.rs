//! Writing a plate.

use super::{is_short, width, ETX, GOTO, IF, INPUT, INPUTS, LONG};
use super::{PHRASE, PRINT, PRINTEX, SHORT, SPELLED, SPELLED_IN_BYTES};
use crate::action::{Action, Test};
use crate::bits::BitWriter;
use crate::limits::{MAX_PLATE, MIN_OPTIONS};
use crate::phrases::{place_width, Phrases, Place};
use crate::program::{Instruction, Program};
use crate::refusal::{cause, refuse, Refusal};
use crate::text;

/// The plate of a program; over 2,953 bytes is 10.
pub fn write(program: &Program) -> Result<Vec<u8>, Refusal> {
    let mut writer = Writer { bits: BitWriter::default(), phrases: &program.phrases };
    writer.own_phrases();
    writer.bits.put(program.instructions.len() as u32, width::COUNT);
    for instruction in &program.instructions {
        writer.instruction(instruction);
    }
    let plate = writer.bits.finish();
    if plate.len() > MAX_PLATE {
        return refuse(cause::PLATE_TOO_LONG, 0);
    }
    Ok(plate)
}

struct Writer<'w, 'a> {
    bits: BitWriter,
    phrases: &'w Phrases<'a>,
}

impl Writer<'_, '_> {
    fn own_phrases(&mut self) {
        let own = self.phrases.own();
        if own.is_empty() {
            return self.bits.put(0, width::ANY_OWN);
        }
        self.bits.put(1, width::ANY_OWN);
        self.bits.put(own.len() as u32 - 1, width::OWN_COUNT);
        for phrase in own {
            self.characters(phrase, width::CHARACTER);
        }
    }

    fn instruction(&mut self, instruction: &Instruction) {
        match instruction {
            Instruction::Action(action) => self.action(action),
            Instruction::Goto { skip } => {
                self.bits.put(GOTO, width::CODE);
                self.skip(*skip);
            }
            Instruction::If { test, skip } => {
                self.bits.put(IF, width::CODE);
                self.test(test);
                self.skip(*skip);
            }
        }
    }

    fn action(&mut self, action: &Action) {
        match action {
            Action::Input { register, text } => {
                self.bits.put(INPUT, width::CODE);
                self.register(*register);
                self.text(text);
            }
            Action::Inputs { register, text, options } => {
                self.bits.put(INPUTS, width::CODE);
                self.register(*register);
                self.text(text);
                let count = options.len() - MIN_OPTIONS;
                self.bits.put(count as u32, width::OPTIONS);
                for option in options {
                    self.text(option);
                }
            }
            Action::Print { text } => {
                self.bits.put(PRINT, width::CODE);
                self.text(text);
            }
            Action::Printex { text } => {
                self.bits.put(PRINTEX, width::CODE);
                self.text(text);
            }
        }
    }

    fn register(&mut self, register: u8) {
        self.bits.put(u32::from(register), width::REGISTER);
    }

    fn test(&mut self, test: &Test) {
        self.register(test.register);
        self.bits.put(test.op.code(), width::OP);
        if is_short(test.constant) {
            self.bits.put(SHORT, width::CONSTANT_CODE);
            let low_half = test.constant as u16;
            self.bits.put(u32::from(low_half), width::SHORT);
        } else {
            self.bits.put(LONG, width::CONSTANT_CODE);
            self.bits.put(test.constant as u32, width::LONG);
        }
    }

    fn skip(&mut self, skip: usize) {
        self.bits.put(skip as u32, width::SKIP);
    }

    /// A text that is a phrase is always written as one.
    fn text(&mut self, text: &[u8]) {
        match self.phrases.find(text) {
            None => self.spelled(text),
            Some(place) => {
                self.bits.put(PHRASE, width::TEXT_CODE);
                self.phrase(place);
            }
        }
    }

    fn phrase(&mut self, place: Place) {
        if self.phrases.only_list().is_none() {
            self.bits.put(place.list as u32, width::BOOK_OR_OWN);
        }
        let count = self.phrases.list(place.list).len();
        self.bits.put(place.index as u32, place_width(count));
    }

    /// A text with a byte of 128 or more takes 8 bits to a byte.
    fn spelled(&mut self, text: &[u8]) {
        let (code, width) = match text::is_plain(text) {
            true => (SPELLED, width::CHARACTER),
            false => (SPELLED_IN_BYTES, width::BYTE),
        };
        self.bits.put(code, width::TEXT_CODE);
        self.characters(text, width);
    }

    fn characters(&mut self, text: &[u8], width: u32) {
        for &byte in text {
            self.bits.put(u32::from(byte), width);
        }
        self.bits.put(ETX, width);
    }
}
