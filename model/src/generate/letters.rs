//! Letters beyond ASCII, and damage to them.

use crate::cases::utf8::{ILL_FORMED, LETTERS};
use crate::rng::Rng;
use std::str;

/// A letter of 2 to 4 bytes: a known one, or any.
fn letter(rng: &mut Rng) -> char {
    if rng.once_in(4) {
        if let Some(any) = char::from_u32(rng.between(0x80, 0x10_FFFF) as u32) {
            return any;
        }
    }
    rng.pick(&LETTERS).chars().next().expect("a letter")
}

/// A text of up to `most` bytes, at least 2, with at least one letter beyond ASCII.
pub fn text(rng: &mut Rng, most: usize) -> Vec<u8> {
    let first = letter(rng);
    let first = if first.len_utf8() > most { 'é' } else { first };
    let mut letters = vec![first];
    let mut left = most - first.len_utf8();
    let share = *rng.pick(&[1, 2, 6]);
    loop {
        let next = if rng.once_in(share) { letter(rng) } else { char::from(*rng.pick(b"abc .-")) };
        if next.len_utf8() > left {
            break;
        }
        left -= next.len_utf8();
        letters.push(next);
    }
    let place = rng.below(letters.len());
    letters.swap(0, place);
    String::from_iter(letters).into_bytes()
}

/// Takes the last letter of a text away, if it has others.
pub fn drop_last(text: &mut Vec<u8>) {
    if let Ok(letters) = str::from_utf8(text) {
        match letters.char_indices().next_back() {
            Some((last, _)) if last > 0 => text.truncate(last),
            _ => {}
        }
    }
}

/// Puts a letter, or a sequence that is none, in between any two bytes.
pub fn put_in(rng: &mut Rng, bytes: &mut Vec<u8>) {
    let at = rng.between(0, bytes.len());
    let put: Vec<u8> = match rng.once_in(2) {
        true => letter(rng).to_string().into_bytes(),
        false => rng.pick(&ILL_FORMED).to_vec(),
    };
    bytes.splice(at..at, put);
}

/// Takes one byte of a letter beyond ASCII away, or changes it to another that a
/// letter may have.
pub fn spoil(rng: &mut Rng, bytes: &mut Vec<u8>) {
    let places: Vec<usize> = (0..bytes.len()).filter(|&at| bytes[at] >= 0x80).collect();
    if places.is_empty() {
        return put_in(rng, bytes);
    }
    let at = *rng.pick(&places);
    match rng.below(3) {
        0 => {
            bytes.remove(at);
        }
        1 => bytes[at] = rng.between(0x80, 0xFF) as u8,
        _ => bytes[at] ^= 1 << rng.below(7),
    }
}
