//! A notation for plates written by hand, apart from the plate writer.
//!
//! Blanks part the fields. `0101` are bits, `5:10` is a number in 10 bits,
//! `'OK'` are characters of 7 bits each, `;` is their ETX, `<é>` are bytes of 8
//! bits each, `|` is their ETX, and `^` marks a place.

use std::ops::Range;

#[derive(Default)]
pub struct Written {
    bits: Vec<bool>,
    /// The bits of each field.
    pub fields: Vec<Range<usize>>,
    /// The bit where `^` stands, if anywhere.
    pub mark: Option<usize>,
}

/// Reads the notation.
pub fn plate(notation: &str) -> Written {
    let mut written = Written::default();
    let mut rest = notation.trim_start();
    while let Some(first) = rest.chars().next() {
        let length = match first {
            '^' => {
                written.mark = Some(written.bits.len());
                1
            }
            ';' => {
                written.number(3, 7);
                1
            }
            '|' => {
                written.number(3, 8);
                1
            }
            '\'' => written.characters(&rest[1..], '\'', 7),
            '<' => written.characters(&rest[1..], '>', 8),
            _ => {
                let end = rest.find([' ', ';', '\'', '|', '<']).unwrap_or(rest.len());
                written.token(&rest[..end]);
                end
            }
        };
        rest = rest[length..].trim_start();
    }
    written
}

/// Any bytes, each a number in 8 bits.
pub fn in_8_bits(bytes: &[u8]) -> String {
    bytes.iter().map(|byte| format!(" {byte}:8")).collect()
}

impl Written {
    /// Characters of this width up to `end`; answers how much of the notation they are.
    fn characters(&mut self, from: &str, end: char, width: usize) -> usize {
        let length = from.find(end).expect("an end of the characters");
        for byte in from[..length].bytes() {
            self.number(i64::from(byte), width);
        }
        length + 2
    }

    fn token(&mut self, token: &str) {
        match token.split_once(':') {
            Some((value, width)) => {
                let value = value.parse().expect("a number");
                self.number(value, width.parse().expect("a width"));
            }
            None => {
                let value = i64::from_str_radix(token, 2).expect("bits");
                self.number(value, token.len());
            }
        }
    }

    /// A field: the lowest `width` bits, in two's complement.
    fn number(&mut self, value: i64, width: usize) {
        let start = self.bits.len();
        for place in (0..width).rev() {
            self.bits.push(value >> place & 1 == 1);
        }
        self.fields.push(start..start + width);
    }

    pub fn length(&self) -> usize {
        self.bits.len()
    }

    /// The bits with the last byte filled with zeros.
    pub fn bytes(&self) -> Vec<u8> {
        self.bits
            .chunks(8)
            .map(|chunk| {
                let ones = chunk.iter().enumerate().filter(|(_, &bit)| bit);
                ones.map(|(place, _)| 0x80 >> place).sum()
            })
            .collect()
    }
}
