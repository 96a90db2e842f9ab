//! Letters of UTF-8 and sequences that are none, by the table of RFC 3629.

/// The least and the greatest value of a byte.
type Range = (u8, u8);

const TAIL: Range = (0x80, 0xBF);

/// The letters of ASCII, and behind them those of the table's rows for 2, 3 and 4
/// bytes: the range of each byte.
const ROWS: [&[Range]; 9] = [
    &[(0x00, 0x7F)],
    &[(0xC2, 0xDF), TAIL],
    &[(0xE0, 0xE0), (0xA0, 0xBF), TAIL],
    &[(0xE1, 0xEC), TAIL, TAIL],
    &[(0xED, 0xED), (0x80, 0x9F), TAIL],
    &[(0xEE, 0xEF), TAIL, TAIL],
    &[(0xF0, 0xF0), (0x90, 0xBF), TAIL, TAIL],
    &[(0xF1, 0xF3), TAIL, TAIL, TAIL],
    &[(0xF4, 0xF4), (0x80, 0x8F), TAIL, TAIL],
];

/// Letters of 2, 3 and 4 bytes. Some are no letters of a language: U+0080, U+0301,
/// U+FEFF, U+FFFF and U+10FFFF are allowed as all others are.
pub const LETTERS: [&str; 18] = [
    "é",
    "ā",
    "Ō",
    "ł",
    "ź",
    "ã",
    "\u{80}",
    "\u{9F}",
    "\u{301}",
    "\u{7FF}",
    "\u{800}",
    "€",
    "\u{D7FF}",
    "\u{E000}",
    "\u{FEFF}",
    "\u{FFFF}",
    "😀",
    "\u{10FFFF}",
];

/// Sequences that are no letters, by their class.
pub const ILL_FORMED: [&[u8]; 32] = [
    // A tail without its first byte.
    b"\x80",
    b"\xA9",
    b"\xBF",
    b"\xC3\xA9\xA9",
    b"\xE2\x82\xAC\xAC",
    // Cut after 1, 2 and 3 bytes.
    b"\xC3",
    b"\xE2",
    b"\xE2\x82",
    b"\xF0",
    b"\xF0\x9F",
    b"\xF0\x9F\x98",
    // Cut by another letter.
    b"\xC3\xC3\xA9",
    b"\xE2\x82\xC3\xA9",
    b"\xF0\x9F\x98\xE2\x82\xAC",
    b"\xE2\x20\xAC",
    b"\xF0\x9F\x20\x80",
    // Longer than need be: of 2, 3 and 4 bytes.
    b"\xC0\x80",
    b"\xC0\xAF",
    b"\xC1\xBF",
    b"\xE0\x80\xAF",
    b"\xE0\x9F\xBF",
    b"\xF0\x80\x80\xAF",
    b"\xF0\x8F\xBF\xBF",
    // Surrogates: the first, the last, and a pair.
    b"\xED\xA0\x80",
    b"\xED\xBF\xBF",
    b"\xED\xA0\xBD\xED\xB8\x80",
    // Above U+10FFFF.
    b"\xF4\x90\x80\x80",
    b"\xF5\x80\x80\x80",
    b"\xF7\xBF\xBF\xBF",
    b"\xF8\x88\x80\x80\x80",
    b"\xFE",
    b"\xFF",
];

/// Whether the bytes are letters of the table, one behind the other.
pub fn are_letters(bytes: &[u8]) -> bool {
    let mut rest = bytes;
    while !rest.is_empty() {
        let Some(row) = ROWS.iter().find(|row| begins_with(rest, row)) else {
            return false;
        };
        rest = &rest[row.len()..];
    }
    true
}

fn begins_with(bytes: &[u8], row: &[Range]) -> bool {
    let in_range = |(byte, range): (&u8, &Range)| (range.0..=range.1).contains(byte);
    bytes.len() >= row.len() && bytes.iter().zip(row).all(in_range)
}

/// Of each row but that of ASCII the first letter and the last, and the first one
/// with one byte at an end of its range or just outside.
pub fn about_rows() -> Vec<Vec<u8>> {
    let mut all = Vec::new();
    for row in &ROWS[1..] {
        let first: Vec<u8> = row.iter().map(|range| range.0).collect();
        all.push(row.iter().map(|range| range.1).collect());
        for (place, range) in row.iter().enumerate() {
            for byte in [range.0 - 1, range.0, range.1, range.1 + 1] {
                let mut changed = first.clone();
                changed[place] = byte;
                all.push(changed);
            }
        }
    }
    all.sort_unstable();
    all.dedup();
    all
}

/// The rows, the letters and what is ill formed, and whether each is well formed.
pub fn all() -> Vec<(Vec<u8>, bool)> {
    let letters = LETTERS.iter().map(|letter| (letter.as_bytes().to_vec(), true));
    let ill_formed = ILL_FORMED.iter().map(|bytes| (bytes.to_vec(), false));
    let rows = about_rows().into_iter().map(|bytes| {
        let well_formed = are_letters(&bytes);
        (bytes, well_formed)
    });
    letters.chain(ill_formed).chain(rows).collect()
}

/// A text of this many bytes: the letter, and in front of it as many `x` as are
/// left over.
pub fn text_of(letter: &str, bytes: usize) -> String {
    "x".repeat(bytes % letter.len()) + &letter.repeat(bytes / letter.len())
}
