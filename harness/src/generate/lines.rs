//! Lines of guides and listings, one by one.

use model::cases::utf8;
use model::cases::Source;
use model::generate::letters;
use model::generate::words::{constant, fresh_text, op, register};
use model::rng::Rng;

/// Adds a line and its LF.
pub fn add(out: &mut Vec<u8>, line: &[u8]) {
    out.extend_from_slice(line);
    out.push(b'\n');
}

/// Lines of at most two instructions of a guide, or one of a listing, with short texts. Answers how many.
pub fn add_short(rng: &mut Rng, source: Source, out: &mut Vec<u8>, left: usize) -> usize {
    let text = String::from_utf8(fresh_text(rng, true, true)).expect("letters");
    let test = format!("if,{},{},{}", register(rng), op(rng), constant(rng));
    match (rng.below(12), source) {
        (0, Source::Listing) => add(out, format!("goto,{}", rng.below(left)).as_bytes()),
        (1..=2, Source::Listing) => add(out, format!("{test},{}", rng.below(left)).as_bytes()),
        (0, _) => add(out, format!("{test}\nfi").as_bytes()),
        (1..=2, _) if left > 1 => {
            add(out, format!("{test}\nelse\nfi").as_bytes());
            return 2;
        }
        (3, _) => add(out, format!("input,{},{text}", register(rng)).as_bytes()),
        (4, _) => add(out, format!("inputs,{},{text},a,b", register(rng)).as_bytes()),
        _ => add(out, format!("print,{text}").as_bytes()),
    }
    1
}

/// A line of a kind with one text, and that text.
pub fn add_text(rng: &mut Rng, out: &mut Vec<u8>, text: &[u8]) {
    match rng.below(4) {
        0 => add(out, &[b"input,31,", text].concat()),
        1 => add(out, &[b"inputs,0,", text, b",a,", text].concat()),
        2 => add(out, &[b"printex,", text].concat()),
        _ => add(out, &[b"print,", text].concat()),
    }
}

/// A text with letters beyond ASCII: many, of at most this length, or one over and over, of just this length.
pub fn lettered_text(rng: &mut Rng, length: usize) -> Vec<u8> {
    match rng.once_in(3) {
        true => letters::text(rng, length),
        false => {
            let letter: &&str = rng.pick(&utf8::LETTERS);
            utf8::text_of(letter, length).into_bytes()
        }
    }
}

/// A text of this length, of one letter but for its last four places.
pub fn text_of(rng: &mut Rng, length: usize) -> Vec<u8> {
    let mut text = vec![*rng.pick(b"aXz~ "); length];
    let last = length.saturating_sub(4);
    text[last..].fill_with(|| *rng.pick(b"abcdefgh"));
    text
}
