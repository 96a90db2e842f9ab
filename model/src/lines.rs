//! The lines of a guide or listing, their fields, and the kinds that both have.

use crate::action::{Action, Op, Test};
use crate::limits::{MAX_INSTRUCTIONS, MAX_OPTIONS, MIN_OPTIONS, REGISTERS};
use crate::number;
use crate::refusal::{cause, refuse, Refusal};
use crate::text::{self, LF};

/// Goes through the lines of a text.
pub struct Lines<'a> {
    rest: &'a [u8],
    number: usize,
    fields: Vec<&'a [u8]>,
}

/// One line, cut at its commas. Lines count from 1.
pub struct Line<'l, 'a> {
    pub number: usize,
    pub fields: &'l [&'a [u8]],
}

impl<'a> Lines<'a> {
    pub fn new(text: &'a [u8]) -> Self {
        Lines { rest: text, number: 0, fields: Vec::new() }
    }

    /// The next line if there is one; a byte not allowed, an ill-formed letter or
    /// no LF is 3.
    pub fn next_line(&mut self) -> Result<Option<Line<'_, 'a>>, Refusal> {
        if self.rest.is_empty() {
            return Ok(None);
        }
        self.number += 1;
        let Some(end) = self.rest.iter().position(|&byte| byte == LF) else {
            return refuse(cause::BYTE, self.number);
        };
        let line = &self.rest[..end];
        self.rest = &self.rest[end + 1..];
        if !text::is_line(line) {
            return refuse(cause::BYTE, self.number);
        }
        self.fields.clear();
        self.fields.extend(line.split(|&byte| byte == b','));
        Ok(Some(Line { number: self.number, fields: &self.fields }))
    }
}

/// A line of a kind whose fields guides and listings read alike.
pub enum Shared<'a> {
    /// Of a listing; in a guide it is 6.
    Phrase(&'a [u8]),
    Action(Action<'a>),
}

impl<'a> Line<'_, 'a> {
    pub fn refuse<T>(&self, number: u32) -> Result<T, Refusal> {
        refuse(number, self.number)
    }

    /// Reads a line of a shared kind; any other line is 4.
    pub fn shared(&self) -> Result<Shared<'a>, Refusal> {
        let action = match *self.fields {
            [b"phrase", text] => return Ok(Shared::Phrase(self.own_phrase(text)?)),
            [b"input", register, text] => {
                Action::Input { register: self.register(register)?, text: self.text(text)? }
            }
            [b"inputs", register, text, ref options @ ..]
                if (MIN_OPTIONS..=MAX_OPTIONS).contains(&options.len()) =>
            {
                Action::Inputs {
                    register: self.register(register)?,
                    text: self.text(text)?,
                    options: self.options(options)?,
                }
            }
            [b"print", text] => Action::Print { text: self.text(text)? },
            [b"printex", text] => Action::Printex { text: self.text(text)? },
            _ => return self.refuse(cause::KIND),
        };
        Ok(Shared::Action(action))
    }

    pub fn test(&self, register: &[u8], op: &[u8], constant: &[u8]) -> Result<Test, Refusal> {
        let Some(op) = Op::from_name(op) else {
            return self.refuse(cause::FIELD);
        };
        Ok(Test {
            register: self.register(register)?,
            op,
            constant: self.number(constant, i32::MIN, i32::MAX)?,
        })
    }

    fn register(&self, field: &[u8]) -> Result<u8, Refusal> {
        let register = self.number(field, 0, REGISTERS as i32 - 1)?;
        Ok(register as u8)
    }

    pub fn number(&self, field: &[u8], low: i32, high: i32) -> Result<i32, Refusal> {
        match number::read(field, low, high) {
            Some(value) => Ok(value),
            None => self.refuse(cause::FIELD),
        }
    }

    /// A text. The bytes and letters of the line are judged before, and a field
    /// has no comma.
    fn text(&self, field: &'a [u8]) -> Result<&'a [u8], Refusal> {
        if text::is_length(field.len()) {
            Ok(field)
        } else {
            self.refuse(cause::FIELD)
        }
    }

    /// An own phrase keeps the old characters: another byte in one is 5.
    fn own_phrase(&self, field: &'a [u8]) -> Result<&'a [u8], Refusal> {
        let text = self.text(field)?;
        if !text::is_plain(text) {
            return self.refuse(cause::FIELD);
        }
        Ok(text)
    }

    fn options(&self, fields: &[&'a [u8]]) -> Result<Vec<&'a [u8]>, Refusal> {
        fields.iter().map(|field| self.text(field)).collect()
    }

    /// Counts this line's instruction: the 513th is 9.
    pub fn count_instruction(&self, instructions: &mut usize) -> Result<(), Refusal> {
        *instructions += 1;
        if *instructions > MAX_INSTRUCTIONS {
            return self.refuse(cause::INSTRUCTIONS);
        }
        Ok(())
    }
}
