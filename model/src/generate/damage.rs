//! Damage to guides, listings, books and plates.

use super::letters;
use super::words::fresh_text;
use crate::limits::MAX_PLATE;
use crate::rng::Rng;

/// Lines that are wrong in most places.
const ODD_LINES: [&str; 22] = [
    "",
    "else",
    "fi",
    "if,0,eq,0",
    "if,0,eq,0,0",
    "goto,0",
    "goto,511",
    "goto,512",
    "phrase,late",
    "phrase,",
    "print,",
    "print",
    "input,32,a",
    "inputs,0,a,b",
    "inputs,0,a,b,c,d,e,f,g,h,i,j",
    "if,0,eq,2147483648",
    "else,",
    "verdict,a",
    "phrase,é",
    "prínt,a",
    "print,\u{FEFF}",
    "input,é,a",
];

/// Fields that are wrong in most places.
const ODD_FIELDS: [&str; 17] = [
    "",
    "-0",
    "00",
    "01",
    "+1",
    "31",
    "32",
    "-1",
    "511",
    "512",
    "-32769",
    "2147483648",
    "eq",
    " eq",
    "é",
    "1é",
    "eq\u{301}",
];

const ODD_BYTES: &[u8] = b"\0\t\r\x1F ,-0~\x7F\x80\xA9\xC3\xE2\xED\xF0\xF4\xFF\n";

/// Damages a text of lines.
pub fn text(rng: &mut Rng, bytes: &mut Vec<u8>) {
    match rng.below(14) {
        12 => letters::put_in(rng, bytes),
        13 => letters::spoil(rng, bytes),
        0 => flip_bits(rng, bytes, 1),
        1 => {
            if let Some(at) = any_place(rng, bytes) {
                bytes[at] = *rng.pick(ODD_BYTES);
            }
        }
        2 => {
            if let Some(at) = any_place(rng, bytes) {
                bytes.remove(at);
            }
        }
        3 => {
            let at = rng.between(0, bytes.len());
            bytes.insert(at, *rng.pick(ODD_BYTES));
        }
        4 => {
            let length = rng.between(0, bytes.len());
            bytes.truncate(length);
        }
        5 => {
            bytes.pop();
        }
        _ => lines(rng, bytes),
    }
}

/// Removes, repeats, swaps, adds or changes a line.
fn lines(rng: &mut Rng, bytes: &mut Vec<u8>) {
    let mut lines: Vec<Vec<u8>> =
        bytes.split_inclusive(|&byte| byte == b'\n').map(<[u8]>::to_vec).collect();
    let [first, second] = [(); 2].map(|()| any_place(rng, &lines));
    match (rng.below(6), first, second) {
        (0, Some(first), _) => {
            lines.remove(first);
        }
        (1, Some(first), Some(second)) => lines.insert(second, lines[first].clone()),
        (2, Some(first), Some(second)) => lines.swap(first, second),
        (3, Some(first), _) => change_field(rng, &mut lines[first]),
        _ => {
            let at = rng.between(0, lines.len());
            lines.insert(at, format!("{}\n", rng.pick(&ODD_LINES)).into_bytes());
        }
    }
    *bytes = lines.concat();
}

fn change_field(rng: &mut Rng, line: &mut Vec<u8>) {
    let mut fields: Vec<Vec<u8>> = line.split(|&byte| byte == b',').map(<[u8]>::to_vec).collect();
    let at = rng.below(fields.len());
    let is_last = at + 1 == fields.len();
    fields[at] = match rng.below(4) {
        0 => [fresh_text(rng, false, true), b"x".repeat(64)].concat(),
        1 => fresh_text(rng, false, true),
        _ => rng.pick(&ODD_FIELDS).as_bytes().to_vec(),
    };
    if is_last {
        fields[at].push(b'\n');
    }
    *line = fields.join(&b',');
}

/// Makes a text longer than its limit, or just as long.
pub fn lengthen(rng: &mut Rng, bytes: &mut Vec<u8>, limit: usize) {
    let line = [b"print,", &fresh_text(rng, false, false)[..], b"\n"].concat();
    while bytes.len() < limit {
        bytes.extend_from_slice(&line);
    }
    bytes.truncate(limit + rng.below(2));
}

/// Damages a plate.
pub fn plate(rng: &mut Rng, bytes: &mut Vec<u8>) {
    match rng.below(12) {
        0..=3 => flip_bits(rng, bytes, 1),
        4 => flip_bits(rng, bytes, 4),
        5..=6 => {
            let length = rng.between(0, bytes.len());
            bytes.truncate(length);
        }
        7 => {
            bytes.pop();
        }
        8 => bytes.push(*rng.pick(&[0, 0, 1, 128, 255])),
        9 => {
            if let Some(at) = any_place(rng, bytes) {
                bytes.remove(at);
            }
        }
        10 => {
            if let Some(last) = bytes.last_mut() {
                *last |= 1 << rng.below(3);
            }
        }
        _ => {
            let length = rng.between(bytes.len(), bytes.len() + 3);
            let near_limit = MAX_PLATE - 1 + rng.below(3);
            bytes.resize(*rng.pick(&[length, near_limit]), 0);
        }
    }
}

fn flip_bits(rng: &mut Rng, bytes: &mut [u8], count: usize) {
    for _ in 0..count {
        if let Some(at) = any_place(rng, bytes) {
            bytes[at] ^= 1 << rng.below(8);
        }
    }
}

fn any_place<T>(rng: &mut Rng, items: &[T]) -> Option<usize> {
    (!items.is_empty()).then(|| rng.below(items.len()))
}
