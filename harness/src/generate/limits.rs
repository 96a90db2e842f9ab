//! Inputs at the limits of documents 01 and 02 and one past them.

use super::lines::{add, add_short, add_text, lettered_text, text_of};
use super::stored;
use model::cases::{sizes, word, Source};
use model::generate::words::{constant, op, register};
use model::generate::{letters, Sample};
use model::limits::{MAX_BOOK, MAX_GUIDE, MAX_INSTRUCTIONS, MAX_LEVELS, MAX_LISTING, MAX_OWN};
use model::limits::{MAX_PLATE, MAX_TEXT};
use model::rng::Rng;
use std::collections::HashSet;

pub fn sample(rng: &mut Rng, source: Source) -> Sample {
    match source {
        Source::Plate => plate(rng),
        _ => text(rng, source),
    }
}

/// A guide or listing.
fn text(rng: &mut Rng, source: Source) -> Sample {
    let with = |input: Vec<u8>| Sample { input, book: Vec::new() };
    match rng.below(14) {
        12 => with(lettered(rng)),
        13 => with(full_of_letters(rng)),
        0 => with(instructions(rng, source)),
        1 => bytes(rng, source),
        2 => with(levels(rng)),
        3..=4 if source == Source::Listing => with(own_phrases(rng)),
        3..=4 => with(phrase_line(rng)),
        5..=6 => with(texts(rng)),
        7 => full_book(rng),
        8 => with(full_plate(rng)),
        9..=10 => with(constants(rng, source)),
        _ => stored::long(rng, source),
    }
}

/// The plate of a guide or listing at a limit, or bytes at the limit of a plate.
fn plate(rng: &mut Rng) -> Sample {
    if rng.once_in(6) {
        return stored::long(rng, Source::Plate);
    }
    if rng.once_in(6) {
        let any = rng.next_u64() as u8;
        let length = about(rng, MAX_PLATE);
        return Sample { input: vec![*rng.pick(&[0, 255, any]); length], book: Vec::new() };
    }
    let source = *rng.pick(&[Source::Guide, Source::Listing]);
    let Sample { input, book } = text(rng, source);
    let plate = match source {
        Source::Guide => model::translate(&input, &book),
        _ => model::write_plate(&input, &book),
    };
    Sample { input: plate.unwrap_or_else(|_| vec![0; about(rng, MAX_PLATE)]), book }
}

/// The limit, one less or one more.
fn about(rng: &mut Rng, limit: usize) -> usize {
    limit - 1 + rng.below(3)
}

/// 511, 512 or 513 instructions.
fn instructions(rng: &mut Rng, source: Source) -> Vec<u8> {
    let mut out = Vec::new();
    let mut left = about(rng, MAX_INSTRUCTIONS);
    let plain = rng.once_in(3);
    while left > 0 {
        left -= match plain {
            true => {
                add(&mut out, b"print,a");
                1
            }
            false => add_short(rng, source, &mut out, left),
        };
    }
    out
}

/// A guide of 16,383 to 16,385 bytes, at times a listing of 327,679 to 327,681, all of phrases.
fn bytes(rng: &mut Rng, source: Source) -> Sample {
    let long = source == Source::Listing && rng.once_in(8);
    let length = about(rng, if long { MAX_LISTING } else { MAX_GUIDE });
    let line = sizes::longest_line();
    let mut input = line.repeat((length - 100) / line.len()).into_bytes();
    let print = format!("print,{}\n", "x".repeat(MAX_TEXT));
    while input.len() + 2 * print.len() < length {
        input.extend_from_slice(print.as_bytes());
    }
    let rest = length - input.len() - "print,\n".len();
    let [first, last] = if rest > MAX_TEXT { [rest - MAX_TEXT, MAX_TEXT] } else { [0, rest] };
    if first > "print,\n".len() {
        add(&mut input, format!("print,{}", "y".repeat(first - "print,\n".len())).as_bytes());
    }
    add(&mut input, format!("print,{}", "y".repeat(last)).as_bytes());
    Sample { input, book: sizes::one_long_phrase() }
}

/// 15, 16 or 17 levels.
fn levels(rng: &mut Rng) -> Vec<u8> {
    let mut out = Vec::new();
    let levels = about(rng, MAX_LEVELS);
    for level in 0..levels {
        add(&mut out, format!("if,{},{},{}", register(rng), op(rng), rng.below(2)).as_bytes());
        if rng.once_in(3) {
            add(&mut out, format!("input,0,{}", word(level)).as_bytes());
        }
        if rng.once_in(3) {
            add(&mut out, b"else");
            add(&mut out, b"print,b");
        }
    }
    for level in 0..levels - usize::from(rng.once_in(20)) {
        add(&mut out, b"fi");
        if rng.once_in(3) {
            add(&mut out, format!("print,{}", word(level)).as_bytes());
        }
    }
    out
}

/// A listing with 31, 32 or 33 own phrases, and lines that use them.
fn own_phrases(rng: &mut Rng) -> Vec<u8> {
    let mut out = Vec::new();
    let length = *rng.pick(&[2, 3, 20, MAX_TEXT]);
    let phrases: Vec<Vec<u8>> = (0..about(rng, MAX_OWN))
        .map(|place| [word(place).as_bytes(), &vec![b'-'; length - 2]].concat())
        .collect();
    for phrase in &phrases {
        add(&mut out, &[b"phrase,", &phrase[..]].concat());
    }
    for _ in 0..rng.below(8) {
        let text = rng.pick(&phrases).clone();
        add_text(rng, &mut out, &text);
    }
    out
}

/// A guide with a phrase line, at times one of 0 or 65 bytes, and a few lines before and after it.
fn phrase_line(rng: &mut Rng) -> Vec<u8> {
    let mut out = Vec::new();
    for _ in 0..rng.below(4) {
        add_text(rng, &mut out, b"before");
    }
    let length = *rng.pick(&[0, 1, 2, MAX_TEXT, MAX_TEXT, MAX_TEXT + 1]);
    let text =
        if rng.once_in(6) { lettered_text(rng, length.max(2)) } else { text_of(rng, length) };
    add(&mut out, &[b"phrase,", &text[..]].concat());
    for _ in 0..rng.below(4) {
        add_text(rng, &mut out, b"after");
    }
    out
}

/// Texts of 0, 1, 63, 64 and 65 bytes.
fn texts(rng: &mut Rng) -> Vec<u8> {
    let mut out = Vec::new();
    for _ in 0..rng.between(1, 6) {
        let length = *rng.pick(&[1, MAX_TEXT - 1, MAX_TEXT, MAX_TEXT]);
        let length = if rng.once_in(8) { *rng.pick(&[0, MAX_TEXT + 1]) } else { length };
        let text = text_of(rng, length);
        add_text(rng, &mut out, &text);
    }
    out
}

/// Texts of 2 to 66 bytes with letters beyond ASCII, at times a byte more or less.
fn lettered(rng: &mut Rng) -> Vec<u8> {
    let mut out = Vec::new();
    for _ in 0..rng.between(1, 6) {
        let length = *rng.pick(&[2, 3, 4, MAX_TEXT - 1, MAX_TEXT, MAX_TEXT]);
        let length = if rng.once_in(8) { MAX_TEXT + rng.between(1, 2) } else { length };
        let mut text = lettered_text(rng, length);
        if rng.once_in(12) {
            text.pop();
        }
        add_text(rng, &mut out, &text);
    }
    out
}

/// A book of 255, 256 or 257 phrases of 64 bytes, and lines that use it or nearly do.
fn full_book(rng: &mut Rng) -> Sample {
    let mut seen = HashSet::new();
    let mut phrases: Vec<Vec<u8>> = Vec::new();
    let count = about(rng, MAX_BOOK);
    let lettered = rng.once_in(3);
    while phrases.len() < count {
        let text = match lettered {
            true => letters::text(rng, MAX_TEXT),
            false => text_of(rng, MAX_TEXT),
        };
        if seen.insert(text.clone()) {
            phrases.push(text);
        }
    }
    let mut input = Vec::new();
    for _ in 0..rng.between(0, 6) {
        let mut text = rng.pick(&phrases).clone();
        if rng.once_in(4) {
            letters::drop_last(&mut text);
        }
        add_text(rng, &mut input, &text);
    }
    let mut book = phrases.join(&b'\n');
    book.push(b'\n');
    Sample { input, book }
}

/// Spelled prints whose plate has 2,952 to 2,954 bytes.
fn full_plate(rng: &mut Rng) -> Vec<u8> {
    let mut out = Vec::new();
    let bits_of = |length: usize| 5 + 7 * (length + 1);
    let mut left = MAX_PLATE * 8 - 11;
    while left > bits_of(MAX_TEXT) {
        let length = if rng.once_in(3) { rng.between(1, MAX_TEXT) } else { MAX_TEXT };
        let text = text_of(rng, length);
        add(&mut out, &[b"print,", &text[..]].concat());
        left -= bits_of(length);
    }
    let last = (left / 7).saturating_sub(1).clamp(1, MAX_TEXT);
    let text = text_of(rng, last);
    add(&mut out, &[b"print,", &text[..]].concat());
    out
}

/// The same with letters beyond ASCII, which take 8 bits to a byte.
fn full_of_letters(rng: &mut Rng) -> Vec<u8> {
    let mut out = Vec::new();
    let bits_of = |length: usize| 5 + 8 * (length + 1);
    let mut left = MAX_PLATE * 8 - 11;
    while left > bits_of(MAX_TEXT) {
        let text = lettered_text(rng, MAX_TEXT);
        add(&mut out, &[b"print,", &text[..]].concat());
        left -= bits_of(text.len());
    }
    let last = (left / 8).saturating_sub(1).clamp(2, MAX_TEXT);
    let text = lettered_text(rng, last);
    add(&mut out, &[b"print,", &text[..]].concat());
    out
}

/// Ifs with constants at the limits, at times one past them.
fn constants(rng: &mut Rng, source: Source) -> Vec<u8> {
    let mut out = Vec::new();
    let skip = if source == Source::Listing { ",0" } else { "" };
    for _ in 0..rng.between(1, 5) {
        let any = constant(rng);
        let number = i64::from(*rng.pick(&[i32::MIN, i32::MAX, any]));
        let past = if rng.once_in(8) { number.signum() } else { 0 };
        add(&mut out, format!("input,{},a", register(rng)).as_bytes());
        let test = format!("if,{},{},{}{skip}", register(rng), op(rng), number + past);
        add(&mut out, test.as_bytes());
        add(&mut out, b"print,b");
        if source == Source::Guide {
            add(&mut out, b"fi");
        }
    }
    out
}
