//! Reading a plate, field by field.

use super::{is_short, width, ETX, GOTO, IF, INPUT, INPUTS, LONG};
use super::{PHRASE, PRINT, PRINTEX, SHORT, SPELLED, SPELLED_IN_BYTES};
use crate::action::{Action, Op, Test};
use crate::bits::BitReader;
use crate::limits::{MAX_INSTRUCTIONS, MAX_OPTIONS, MAX_PLATE, MIN_OPTIONS};
use crate::phrases::{place_width, List, Phrases};
use crate::program::{target, Instruction, Program};
use crate::refusal::{cause, refuse, Refusal};
use crate::text;
use std::mem;

/// Reads a plate: causes 1, 8, 10 and 12 to 15. The spelled texts are kept in
/// `characters`, which has the length of [`room_for_characters`].
pub fn read<'a>(
    plate: &[u8],
    book: &'a [u8],
    characters: &'a mut [u8],
) -> Result<Program<'a>, Refusal> {
    let phrases = Phrases::of_book(book)?;
    if plate.len() > MAX_PLATE {
        return refuse(cause::PLATE_TOO_LONG, 0);
    }
    let mut reader = Reader { bits: BitReader::new(plate), phrases, free: characters };
    reader.own_phrases()?;
    let count = reader.count()?;
    let mut instructions = Vec::with_capacity(count);
    for at in 0..count {
        instructions.push(reader.instruction(at, count)?);
    }
    reader.filling()?;
    Ok(Program { phrases: reader.phrases, instructions })
}

/// Room for all the characters that a plate can spell.
pub fn room_for_characters(plate: &[u8]) -> Vec<u8> {
    let bits = plate.len().min(MAX_PLATE) * 8;
    vec![0; bits / width::CHARACTER as usize]
}

struct Reader<'p, 'a> {
    bits: BitReader<'p>,
    phrases: Phrases<'a>,
    /// The part of `characters` not yet used.
    free: &'a mut [u8],
}

/// A field's value and first bit.
struct Field {
    value: u32,
    bit: usize,
}

impl Field {
    fn refuse<T>(&self, number: u32) -> Result<T, Refusal> {
        refuse(number, self.bit)
    }
}

/// Whether a text may be spelled in 8 bits to a byte: it is well formed, and 7 bits
/// are not enough for it.
fn is_lettered(text: &[u8]) -> bool {
    !text::is_plain(text) && text::is_well_formed(text)
}

impl<'a> Reader<'_, 'a> {
    /// The next field; one that does not fit is 12.
    fn field(&mut self, width: u32) -> Result<Field, Refusal> {
        let bit = self.bits.position();
        match self.bits.take(width) {
            Some(value) => Ok(Field { value, bit }),
            None => refuse(cause::CUT, bit),
        }
    }

    fn own_phrases(&mut self) -> Result<(), Refusal> {
        if self.field(width::ANY_OWN)?.value == 0 {
            return Ok(());
        }
        let less_one = self.field(width::OWN_COUNT)?.value;
        for _ in 0..=less_one {
            let (bit, text) = self.characters(width::CHARACTER)?;
            if !self.phrases.add_own(text) {
                return refuse(cause::CONTENT, bit);
            }
        }
        Ok(())
    }

    fn count(&mut self) -> Result<usize, Refusal> {
        let field = self.field(width::COUNT)?;
        let count = field.value as usize;
        if count > MAX_INSTRUCTIONS {
            return field.refuse(cause::CODE);
        }
        Ok(count)
    }

    fn instruction(&mut self, at: usize, count: usize) -> Result<Instruction<'a>, Refusal> {
        let code = self.field(width::CODE)?;
        let action = match code.value {
            INPUT => Action::Input { register: self.register()?, text: self.text()? },
            INPUTS => Action::Inputs {
                register: self.register()?,
                text: self.text()?,
                options: self.options()?,
            },
            PRINT => Action::Print { text: self.text()? },
            PRINTEX => Action::Printex { text: self.text()? },
            GOTO => {
                let skip = self.skip(at, count)?;
                return Ok(Instruction::Goto { skip });
            }
            IF => {
                let test = self.test()?;
                let skip = self.skip(at, count)?;
                return Ok(Instruction::If { test, skip });
            }
            _ => return code.refuse(cause::CODE),
        };
        Ok(Instruction::Action(action))
    }

    fn register(&mut self) -> Result<u8, Refusal> {
        Ok(self.field(width::REGISTER)?.value as u8)
    }

    fn options(&mut self) -> Result<Vec<&'a [u8]>, Refusal> {
        let field = self.field(width::OPTIONS)?;
        let count = MIN_OPTIONS + field.value as usize;
        if count > MAX_OPTIONS {
            return field.refuse(cause::CODE);
        }
        (0..count).map(|_| self.text()).collect()
    }

    fn test(&mut self) -> Result<Test, Refusal> {
        let register = self.register()?;
        let code = self.field(width::OP)?;
        let Some(op) = Op::from_code(code.value) else {
            return code.refuse(cause::CODE);
        };
        let constant = self.constant()?;
        Ok(Test { register, op, constant })
    }

    fn constant(&mut self) -> Result<i32, Refusal> {
        let code = self.field(width::CONSTANT_CODE)?;
        match code.value {
            SHORT => {
                let number = self.field(width::SHORT)?.value as i16;
                Ok(i32::from(number))
            }
            LONG => {
                let field = self.field(width::LONG)?;
                let constant = field.value as i32;
                if is_short(constant) {
                    return field.refuse(cause::CONTENT);
                }
                Ok(constant)
            }
            _ => code.refuse(cause::CODE),
        }
    }

    /// The skip of instruction `at` of `count`; one past the end is 8.
    fn skip(&mut self, at: usize, count: usize) -> Result<usize, Refusal> {
        let field = self.field(width::SKIP)?;
        let skip = field.value as usize;
        if target(at, skip) > count {
            return field.refuse(cause::SKIP);
        }
        Ok(skip)
    }

    /// A text; the code 10 is unused, and so 13, where there are no phrases.
    fn text(&mut self) -> Result<&'a [u8], Refusal> {
        let code = self.field(width::TEXT_CODE)?;
        match code.value {
            SPELLED => self.spelled(width::CHARACTER, |_| true),
            SPELLED_IN_BYTES => self.spelled(width::BYTE, is_lettered),
            PHRASE if !self.phrases.is_empty() => self.phrase(),
            _ => code.refuse(cause::CODE),
        }
    }

    /// A spelled text that `fits` and is no phrase; else it is 14 at its start.
    fn spelled(&mut self, width: u32, fits: fn(&[u8]) -> bool) -> Result<&'a [u8], Refusal> {
        let (bit, text) = self.characters(width)?;
        if !fits(text) || self.phrases.find(text).is_some() {
            return refuse(cause::CONTENT, bit);
        }
        Ok(text)
    }

    fn phrase(&mut self) -> Result<&'a [u8], Refusal> {
        let list = match self.phrases.only_list() {
            Some(list) => list,
            None => match self.field(width::BOOK_OR_OWN)?.value {
                0 => List::Book,
                _ => List::Own,
            },
        };
        let count = self.phrases.list(list).len();
        let place = self.field(place_width(count))?;
        match self.phrases.list(list).get(place.value as usize) {
            Some(phrase) => Ok(phrase),
            None => place.refuse(cause::CODE),
        }
    }

    /// The characters of this width up to ETX, and the bit of the first character
    /// position. A character that may not stand in a text is 14 at its own bit.
    fn characters(&mut self, width: u32) -> Result<(usize, &'a [u8]), Refusal> {
        let first_bit = self.bits.position();
        let mut length = 0;
        loop {
            let field = self.field(width)?;
            if field.value == ETX {
                break;
            }
            let byte = field.value as u8;
            if !text::is_character(byte) {
                return field.refuse(cause::CONTENT);
            }
            self.free[length] = byte;
            length += 1;
        }
        if !text::is_length(length) {
            return refuse(cause::CONTENT, first_bit);
        }
        let (text, free) = mem::take(&mut self.free).split_at_mut(length);
        self.free = free;
        Ok((first_bit, text))
    }

    /// What follows the last instruction: fewer than 8 bits, all zero, or 15.
    fn filling(&mut self) -> Result<(), Refusal> {
        let bit = self.bits.position();
        let left = self.bits.left();
        if left >= 8 || self.bits.take(left as u32) != Some(0) {
            return refuse(cause::FILLING, bit);
        }
        Ok(())
    }
}
