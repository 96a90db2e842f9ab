//! Books that are good, and books with a fault at each of their lines.

use super::Case;
use crate::cases::utf8::{self, text_of};
use crate::cases::{book_of, lines, text, word};
use crate::rng::Rng;

/// Bytes about the ends of what is allowed, and the comma.
const ODD_BYTES: [u8; 11] = [0, 9, 31, 32, 43, 44, 45, 126, 127, 128, 255];
const LENGTHS: [usize; 8] = [0, 1, 2, 63, 64, 65, 66, 130];
/// What stands before a line and after it.
const AROUND: [(&str, &str); 5] =
    [("", "\n"), ("", ""), ("a\n", "\n"), ("a\n", ""), ("a\n", "\nb\n")];
const COUNTS: [usize; 13] = [1, 2, 3, 17, 18, 32, 33, 127, 128, 254, 255, 256, 257];

/// All books of up to so many bytes, each `a`, `b` or LF.
pub fn small(most: usize) -> Vec<Vec<u8>> {
    let mut books = vec![Vec::new()];
    let mut from = 0;
    for _ in 0..most {
        let until = books.len();
        for place in from..until {
            books.extend(b"ab\n".map(|byte| [&books[place][..], &[byte]].concat()));
        }
        from = until;
    }
    books
}

pub fn collect(rng: &mut Rng, cases: &mut Vec<Case>) {
    let mut add = |book: Vec<u8>| cases.push(Case::Check { book });
    small(6).into_iter().for_each(&mut add);
    (0..=255).for_each(|byte| add(vec![b'z', b'\n', byte, b'\n']));
    lengths(&mut add);
    counts(&mut add);
    repeats(rng, &mut add);
    letters(&mut add);
}

/// Every length as the first line, a later one and the last, with its LF and
/// without, and with odd bytes at each end and between.
fn lengths(add: &mut impl FnMut(Vec<u8>)) {
    for length in LENGTHS {
        let line = text(length);
        for (before, after) in AROUND {
            add([before, &line, after].concat().into_bytes());
        }
        if length == 0 {
            continue;
        }
        for odd in ODD_BYTES {
            for place in [0, length / 2, length - 1] {
                let mut line = line.clone().into_bytes();
                line[place] = odd;
                add([b"a\n", &line[..], b"\n"].concat());
            }
        }
    }
}

/// Counts about the limit and about the powers of two: whole, with the last LF
/// missing, and with a line more of each fault. The longest book of all.
fn counts(add: &mut impl FnMut(Vec<u8>)) {
    for count in COUNTS {
        let book = book_of(count);
        add(book.clone());
        add(book[..book.len() - 1].to_vec());
        for more in ["A", "A\n", "\n", "aa\n", ",\n", "\n\n"] {
            add([&book[..], more.as_bytes()].concat());
        }
    }
    let long = |count| lines(count, |place| text(62) + &word(place)).into_bytes();
    add(long(256));
    add([long(30), text(62).into_bytes(), b"bd\n".to_vec()].concat());
    add([long(30), text(62).into_bytes(), b"be\n".to_vec()].concat());
}

/// A line repeated, at once and further on.
fn repeats(rng: &mut Rng, add: &mut impl FnMut(Vec<u8>)) {
    for count in 1..=20 {
        let mut lines: Vec<String> = (0..count).map(word).collect();
        lines.insert(rng.between(1, count), lines[rng.below(count)].clone());
        add((lines.join("\n") + "\n").into_bytes());
    }
    for count in [255, 256] {
        for place in [0, 100, count - 1] {
            add([book_of(count), word(place).into_bytes(), b"\n".to_vec()].concat());
        }
    }
}

/// Every letter and every sequence that is none as a line; lines of letters about 64
/// bytes; letters parted by LF or a comma; and repeats.
fn letters(add: &mut impl FnMut(Vec<u8>)) {
    for (bytes, _) in utf8::all() {
        add([b"a\n", &bytes[..], b"\n"].concat());
    }
    for letter in ["é", "€", "😀"] {
        for length in [62, 63, 64, 65, 66, 68] {
            add(format!("a\n{}\nb\n", text_of(letter, length)).into_bytes());
        }
    }
    let others: [&[u8]; 6] = [
        b"\xC3\n\xA9\n",
        b"\xC3,\xA9\n",
        b"\xC3\xA9\na\n\xC3\xA9\n",
        b"\xC3\xA9\n\xC3\xA8\ne\xCC\x81\n",
        b"\xC3\xA9\x7F\n",
        b"a\n\xC3\xA9",
    ];
    others.into_iter().for_each(|book| add(book.to_vec()));
    add(lines(256, |place| word(place) + "é").into_bytes());
}
