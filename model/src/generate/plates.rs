//! Random plates: those of listings and guides, those of texts in 8 bits to a byte,
//! good and not, and any bytes.

use super::words::{fresh_text, Words};
use super::{guides, letters, listings};
use crate::bits::BitWriter;
use crate::rng::Rng;

pub fn plate(rng: &mut Rng, words: &Words, book: &[u8]) -> Vec<u8> {
    let written = match rng.below(40) {
        0 => return any_bytes(rng),
        1..=2 => return lettered(rng, words),
        3..=14 => crate::translate(&guides::guide(rng, words), book),
        _ => crate::write_plate(&listings::listing(rng, words), book),
    };
    written.unwrap_or_else(|_| any_bytes(rng))
}

fn any_bytes(rng: &mut Rng) -> Vec<u8> {
    let mut bytes: Vec<u8> = (0..rng.below(40)).map(|_| rng.next_u64() as u8).collect();
    if let [first, second, ..] = &mut bytes[..] {
        // Without own phrases and with few instructions, to be read further.
        *first = 0;
        *second &= 0x3F;
    }
    bytes
}

/// One to three prints of texts of code 01, most of them well formed.
fn lettered(rng: &mut Rng, words: &Words) -> Vec<u8> {
    let mut bits = BitWriter::default();
    let count = rng.between(1, 3);
    bits.put(count as u32, 11);
    for _ in 0..count {
        bits.put(*rng.pick(&[0b01001, 0b01101]), 5);
        for byte in text_of_bytes(rng, words) {
            bits.put(u32::from(byte), 8);
        }
        bits.put(3, 8);
    }
    bits.finish()
}

/// A text with letters, or one that may not stand under code 01: ASCII, empty,
/// longer than 64 bytes, a phrase of the book, ill formed, or with any byte.
fn text_of_bytes(rng: &mut Rng, words: &Words) -> Vec<u8> {
    let mut text = letters::text(rng, 12);
    match rng.below(24) {
        0 => return fresh_text(rng, false, false),
        1 => text.clear(),
        2 => text = letters::text(rng, 64).repeat(2),
        3 if !words.book.is_empty() => return rng.pick(&words.book).clone(),
        4..=7 => letters::put_in(rng, &mut text),
        8..=9 => letters::spoil(rng, &mut text),
        10..=11 => {
            let at = rng.between(0, text.len());
            text.insert(at, *rng.pick(&[0, 2, 3, 3, 31, 32, 44, 126, 127, 128, 255]));
        }
        _ => {}
    }
    text
}
