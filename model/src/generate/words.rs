//! Books, own phrases, texts, registers and constants.

use super::letters;
use crate::action::Op;
use crate::rng::Rng;
use std::collections::HashSet;

/// The phrases of one sample.
pub struct Words {
    pub book: Vec<Vec<u8>>,
    pub own: Vec<Vec<u8>>,
    /// Out of 16, how often a text is fresh and not a phrase.
    fresh_share: usize,
    /// Whether texts have one or two characters, so that many lines fit.
    short: bool,
    /// Whether texts of the book and fresh ones may have letters beyond ASCII.
    lettered: bool,
}

impl Words {
    pub fn new(rng: &mut Rng) -> Self {
        let short = rng.once_in(4);
        let lettered = rng.once_in(3);
        let mut seen = HashSet::new();
        let book_count = book_count(rng);
        let book = different(book_count, &mut seen, || fresh_text(rng, short, lettered));
        let own_count = own_count(rng);
        let own = different(own_count, &mut seen, || plain_text(rng, short));
        Words { book, own, fresh_share: *rng.pick(&[0, 4, 8, 16]), short, lettered }
    }

    pub fn book_bytes(&self) -> Vec<u8> {
        let mut bytes = Vec::new();
        for text in &self.book {
            bytes.extend_from_slice(text);
            bytes.push(b'\n');
        }
        bytes
    }

    /// The `phrase` lines of a listing. At times one is the book's or has a letter
    /// beyond ASCII, or the last is the 33rd.
    pub fn phrase_lines(&self, rng: &mut Rng) -> Vec<u8> {
        let mut bytes = Vec::new();
        let mut add = |text: &[u8]| bytes.extend_from_slice(&[b"phrase,", text, b"\n"].concat());
        for text in &self.own {
            add(text);
        }
        if !self.book.is_empty() && rng.once_in(80) {
            add(rng.pick(&self.book[..]).as_slice());
        }
        if self.lettered && rng.once_in(60) {
            add(&letters::text(rng, 8));
        }
        if self.own.len() == 32 && rng.once_in(8) {
            add(b"the 33rd phrase");
        }
        bytes
    }

    /// A phrase, nearly a phrase, or a fresh text.
    pub fn text(&self, rng: &mut Rng) -> Vec<u8> {
        let phrases = match rng.once_in(2) {
            true => &self.book,
            false => &self.own,
        };
        if phrases.is_empty() || rng.below(16) < self.fresh_share {
            return fresh_text(rng, self.short, self.lettered);
        }
        let mut text = rng.pick(phrases).clone();
        match rng.below(16) {
            0 => letters::drop_last(&mut text),
            1 if text.len() < 64 => text.push(b'a'),
            _ => {}
        }
        text
    }
}

fn book_count(rng: &mut Rng) -> usize {
    match rng.below(20) {
        0..=5 => 0,
        6..=8 => 1,
        9..=11 => rng.between(2, 5),
        12..=15 => rng.between(6, 20),
        16..=18 => *rng.pick(&[2, 3, 17, 18, 31, 32, 33]),
        _ => *rng.pick(&[64, 65, 128, 129, 255, 256]),
    }
}

fn own_count(rng: &mut Rng) -> usize {
    match rng.below(16) {
        0..=6 => 0,
        7..=8 => 1,
        9..=12 => rng.between(2, 6),
        13 => rng.between(7, 31),
        _ => *rng.pick(&[2, 3, 17, 18, 32]),
    }
}

/// Texts that are not in `seen` nor the same as each other.
fn different(
    count: usize,
    seen: &mut HashSet<Vec<u8>>,
    mut text: impl FnMut() -> Vec<u8>,
) -> Vec<Vec<u8>> {
    let mut texts = Vec::new();
    while texts.len() < count {
        let text = text();
        if seen.insert(text.clone()) {
            texts.push(text);
        }
    }
    texts
}

/// How many bytes a text has, or at most has.
fn text_length(rng: &mut Rng, short: bool) -> usize {
    match rng.below(24) {
        _ if short => rng.between(1, 2),
        0 => 64,
        1 => rng.between(13, 63),
        2..=6 => 1,
        _ => rng.between(2, 10),
    }
}

/// A text; every second one has letters beyond ASCII where they are asked for.
pub fn fresh_text(rng: &mut Rng, short: bool, lettered: bool) -> Vec<u8> {
    if lettered && rng.once_in(2) {
        let most = text_length(rng, short).max(2);
        return letters::text(rng, most);
    }
    plain_text(rng, short)
}

/// A text of ASCII.
pub fn plain_text(rng: &mut Rng, short: bool) -> Vec<u8> {
    let length = text_length(rng, short);
    let letters_only = rng.once_in(2);
    (0..length)
        .map(|_| match rng.between(32, 126) as u8 {
            _ if letters_only => *rng.pick(b"abc"),
            b',' => b' ',
            byte => byte,
        })
        .collect()
}

pub fn register(rng: &mut Rng) -> usize {
    match rng.below(4) {
        0 => rng.below(32),
        1 => 31,
        _ => rng.below(3),
    }
}

pub fn op(rng: &mut Rng) -> &'static str {
    let op = rng.pick(&Op::ALL);
    std::str::from_utf8(op.name()).expect("letters")
}

/// Constants near the limits, small ones and any.
pub fn constant(rng: &mut Rng) -> i32 {
    const LIMITS: [i32; 6] = [0, 32_767, -32_768, 65_535, i32::MAX, i32::MIN];
    match rng.below(8) {
        0..=1 => rng.pick(&LIMITS).wrapping_add(rng.below(3) as i32 - 1),
        2 => rng.next_u64() as i32,
        _ => rng.below(10) as i32 - 1,
    }
}

/// How many instructions: mostly few, at times up to 512.
pub fn size(rng: &mut Rng) -> usize {
    match rng.below(200) {
        0 => rng.between(400, 512),
        1 => *rng.pick(&[511, 512]),
        2..=5 => rng.between(100, 400),
        6..=20 => rng.between(30, 100),
        _ => rng.below(24),
    }
}

/// The line of an action, without LF: `input`, `inputs`, `print` or `printex`.
pub fn action(rng: &mut Rng, words: &Words) -> Vec<u8> {
    let kind = rng.below(24);
    let mut line = match kind {
        0..=6 => format!("input,{},", register(rng)),
        7..=13 => format!("inputs,{},", register(rng)),
        14 => "printex,".to_owned(),
        _ => "print,".to_owned(),
    }
    .into_bytes();
    line.extend(words.text(rng));
    if let 7..=13 = kind {
        for _ in 0..rng.between(2, 8) {
            line.push(b',');
            line.extend(words.text(rng));
        }
    }
    line
}
