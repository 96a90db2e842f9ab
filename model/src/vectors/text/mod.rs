//! The cases of `vectors_text`: texts, parts of a text, and decimal numbers.

mod collect;
mod letters;
mod numbers;

pub use collect::collect;

use super::buffer::{pattern, shown};
use super::stdin;
use crate::number;
use crate::show::upper_hex;
use crate::text::{is_line_byte, is_text, is_well_formed};

#[derive(Clone, Debug, PartialEq, Eq)]
pub enum Case {
    /// Whether each byte is allowed on a line, and whether they are a text.
    Text {
        bytes: Vec<u8>,
    },
    /// The parts between the bytes `by`.
    Parts {
        by: u8,
        bytes: Vec<u8>,
    },
    /// Whether the fields from number `from` on are texts.
    Texts {
        from: u64,
        bytes: Vec<u8>,
    },
    Natural {
        limit: u32,
        bytes: Vec<u8>,
    },
    Constant {
        bytes: Vec<u8>,
    },
    PutNatural {
        lent: usize,
        place: u64,
        value: u32,
    },
    PutNumber {
        lent: usize,
        place: u64,
        value: i32,
    },
    Put {
        lent: usize,
        place: u64,
        bytes: Vec<u8>,
    },
    Same {
        one: Vec<u8>,
        other: Vec<u8>,
    },
    /// The first byte `byte` from the place `from` on.
    Find {
        from: u64,
        byte: u8,
        bytes: Vec<u8>,
    },
    /// Whether the bytes are well-formed UTF-8.
    WellFormed {
        bytes: Vec<u8>,
    },
}

impl Case {
    /// The number of the case's kind.
    fn kind(&self) -> usize {
        match self {
            Case::Text { .. } => 0,
            Case::Parts { .. } => 1,
            Case::Texts { .. } => 2,
            Case::Natural { .. } => 3,
            Case::Constant { .. } => 4,
            Case::PutNatural { .. } => 5,
            Case::PutNumber { .. } => 6,
            Case::Put { .. } => 7,
            Case::Same { .. } => 8,
            Case::Find { .. } => 9,
            Case::WellFormed { .. } => 10,
        }
    }

    /// Adds the case to what the program reads.
    pub fn write(&self, out: &mut Vec<u8>) {
        stdin::number(out, self.kind());
        match self {
            Case::Text { bytes } | Case::Constant { bytes } | Case::WellFormed { bytes } => {
                stdin::slice(out, bytes);
            }
            Case::Parts { by, bytes } => {
                stdin::number(out, usize::from(*by));
                stdin::slice(out, bytes);
            }
            Case::Texts { from, bytes } => {
                stdin::long_number(out, *from);
                stdin::slice(out, bytes);
            }
            Case::Natural { limit, bytes } => {
                stdin::number(out, *limit as usize);
                stdin::slice(out, bytes);
            }
            Case::PutNatural { lent, place, value } => {
                lent_at(out, *lent, *place);
                stdin::number(out, *value as usize);
            }
            Case::PutNumber { lent, place, value } => {
                lent_at(out, *lent, *place);
                stdin::signed(out, *value);
            }
            Case::Put { lent, place, bytes } => {
                lent_at(out, *lent, *place);
                stdin::slice(out, bytes);
            }
            Case::Same { one, other } => {
                [one, other].into_iter().for_each(|bytes| stdin::slice(out, bytes));
            }
            Case::Find { from, byte, bytes } => {
                stdin::long_number(out, *from);
                stdin::number(out, usize::from(*byte));
                stdin::slice(out, bytes);
            }
        }
    }

    /// The line that the program writes.
    pub fn answer(&self) -> String {
        let line = match self {
            Case::Text { bytes } => {
                let allowed = bytes.iter().all(|&byte| is_line_byte(byte));
                format!("{},{}", yes(allowed), yes(is_text(bytes)))
            }
            Case::Parts { by, bytes } => shown_parts(*by, bytes),
            Case::Texts { from, bytes } => {
                let from = usize::try_from(*from).expect("a place of 64 bits");
                let mut fields = bytes.split(|&byte| byte == b',').skip(from);
                yes(fields.all(is_text)).to_owned()
            }
            Case::Natural { limit, bytes } => shown_number(natural(bytes, *limit)),
            Case::Constant { bytes } => shown_number(number::read(bytes, i32::MIN, i32::MAX)),
            Case::PutNatural { lent, place, value } => put(*lent, *place, value.to_string()),
            Case::PutNumber { lent, place, value } => put(*lent, *place, value.to_string()),
            Case::Put { lent, place, bytes } => put(*lent, *place, bytes),
            Case::Same { one, other } => yes(one == other).to_owned(),
            Case::Find { from, byte, bytes } => {
                let from = usize::try_from(*from).expect("a place of 64 bits");
                let found = bytes[from..].iter().position(|at| at == byte);
                found.map_or(bytes.len(), |found| from + found).to_string()
            }
            Case::WellFormed { bytes } => yes(is_well_formed(bytes)).to_owned(),
        };
        line + "\n"
    }
}

fn lent_at(out: &mut Vec<u8>, lent: usize, place: u64) {
    stdin::number(out, lent);
    stdin::long_number(out, place);
}

fn yes(yes: bool) -> &'static str {
    if yes {
        "Y"
    } else {
        "N"
    }
}

fn shown_number<T: ToString>(number: Option<T>) -> String {
    number.map_or("N".to_owned(), |value| format!("Y,{}", value.to_string()))
}

/// The count of the parts, each part, and the part past the last, which is empty.
fn shown_parts(by: u8, bytes: &[u8]) -> String {
    let parts: Vec<String> = bytes.split(|&byte| byte == by).map(upper_hex).collect();
    format!("{},{},", parts.len(), parts.join(","))
}

/// The number in `field`, if it is digits with no zero before others, and at
/// most `limit`.
pub fn natural(field: &[u8], limit: u32) -> Option<u32> {
    let zero_first = field.len() > 1 && field[0] == b'0';
    if zero_first || !field.iter().all(u8::is_ascii_digit) {
        return None;
    }
    let value: u32 = std::str::from_utf8(field).ok()?.parse().ok()?;
    (value <= limit).then_some(value)
}

/// Stores bytes from a place on, as far as the buffer goes. The line has the
/// place behind them, at most the greatest number, and the whole buffer.
fn put(lent: usize, place: u64, bytes: impl AsRef<[u8]>) -> String {
    let mut out = pattern(lent);
    let bytes = bytes.as_ref();
    let from = usize::try_from(place).expect("a place of 64 bits");
    for (byte, new) in out.iter_mut().skip(from).zip(bytes) {
        *byte = *new;
    }
    format!("{},{}", place.saturating_add(bytes.len() as u64), shown(&out))
}
