//! Cases of letters beyond ASCII: whether bytes are well-formed UTF-8, and texts and
//! fields that have letters.

use super::Case;
use crate::cases::utf8::{self, text_of, ILL_FORMED, LETTERS};
use crate::generate::letters::{put_in, spoil, text};
use crate::rng::Rng;

const SEED: u64 = 0x5EED_0014;
const RANDOM: usize = 250;
/// How many bytes of ASCII stand before a letter: about the 16 and 32 that may be
/// looked at together.
const BEFORE: [usize; 7] = [0, 15, 16, 17, 31, 32, 33];

pub fn collect(cases: &mut Vec<Case>) {
    let rng = &mut Rng::new(SEED);
    texts(cases);
    fields(rng, cases);
    well_formed(cases);
    pairs(cases);
    long(rng, cases);
    random(rng, cases);
}

/// Every letter and every sequence that is none, alone and inside a text; and texts
/// about 64 bytes.
fn texts(cases: &mut Vec<Case>) {
    for (bytes, _) in utf8::all() {
        let inside = [b"a", &bytes[..], b"b"].concat();
        cases.extend([bytes, inside].map(|bytes| Case::Text { bytes }));
    }
    for letter in ["é", "€", "😀"] {
        for length in 60..=68 {
            let bytes = text_of(letter, length).into_bytes();
            let mut cut = bytes.clone();
            cut.pop();
            cases.extend([bytes, cut].map(|bytes| Case::Text { bytes }));
        }
    }
    for odd in [0, 10, 31, 44, 127] {
        cases.extend(
            [vec![odd, 0xC3, 0xA9], vec![0xC3, odd, 0xA9], vec![0xC3, 0xA9, odd]]
                .map(|bytes| Case::Text { bytes }),
        );
    }
}

/// Fields with letters, one of them at times ill formed, and letters that a comma
/// parts.
fn fields(rng: &mut Rng, cases: &mut Vec<Case>) {
    for letter in LETTERS {
        let bytes = format!("a,{letter},{letter}b").into_bytes();
        cases.extend((0..=3).map(|from| Case::Texts { from, bytes: bytes.clone() }));
    }
    for bytes in ILL_FORMED {
        let bytes = [b"a,", bytes, b",b"].concat();
        cases.extend((0..=2).map(|from| Case::Texts { from, bytes: bytes.clone() }));
    }
    for bytes in [&b"\xC3,\xA9"[..], b"\xE2\x82,\xAC", b"\xE2,\x82\xAC", b"\xF0\x9F,\x98\x80"] {
        cases.extend((0..=2).map(|from| Case::Texts { from, bytes: bytes.to_vec() }));
    }
    for _ in 0..RANDOM / 4 {
        let mut bytes = [text(rng, 12), text(rng, 64), text(rng, 6)].join(&b',');
        if rng.once_in(2) {
            spoil(rng, &mut bytes);
        }
        let from = rng.below(4) as u64;
        cases.push(Case::Texts { from, bytes });
    }
}

/// Every byte alone, and every letter and every sequence that is none behind so many
/// bytes of ASCII, at the end and with ASCII behind it.
fn well_formed(cases: &mut Vec<Case>) {
    cases.push(Case::WellFormed { bytes: Vec::new() });
    cases.extend((0..=255).map(|byte| Case::WellFormed { bytes: vec![byte] }));
    for (bytes, _) in utf8::all() {
        for after in [&b""[..], b"a"] {
            let bytes = [&bytes[..], after].concat();
            cases.push(Case::WellFormed { bytes });
        }
    }
    for bytes in ILL_FORMED.into_iter().chain(LETTERS.iter().map(|letter| letter.as_bytes())) {
        for before in BEFORE {
            let front = [&vec![b'a'; before][..], bytes].concat();
            let inside = [&front[..], b"behind"].concat();
            let twice = [&front[..], &front].concat();
            cases.extend([front, inside, twice].map(|bytes| Case::WellFormed { bytes }));
        }
    }
}

/// Each pair of bytes about the ends of the table's ranges.
fn pairs(cases: &mut Vec<Case>) {
    let edges = b"\x00\x7F\x80\x8F\x90\x9F\xA0\xBF\xC0\xC1\xC2\xDF\xE0\xEC\xED\xEF\xF0\xF4\xF5\xFF";
    for first in edges {
        cases.extend(edges.map(|second| Case::WellFormed { bytes: vec![*first, second] }));
    }
}

/// Letters behind each other up to each length about 64, whole and cut.
fn long(rng: &mut Rng, cases: &mut Vec<Case>) {
    for letter in LETTERS {
        let length = rng.between(40, 70);
        let mut bytes = text_of(letter, length).into_bytes();
        cases.push(Case::WellFormed { bytes: bytes.clone() });
        bytes.pop();
        cases.push(Case::WellFormed { bytes });
    }
}

/// Random letters, and such with one fault or two.
fn random(rng: &mut Rng, cases: &mut Vec<Case>) {
    for number in 0..RANDOM {
        let most = rng.between(2, 40);
        let mut bytes = text(rng, most);
        if number % 3 == 1 {
            spoil(rng, &mut bytes);
        }
        if number % 3 == 2 {
            put_in(rng, &mut bytes);
        }
        cases.push(Case::WellFormed { bytes: bytes.clone() });
        cases.push(Case::Text { bytes });
    }
}
