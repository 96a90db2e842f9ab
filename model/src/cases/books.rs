//! Books: cause 1, in every call.

use super::NEAR_LIMITS;
use super::{book_of, case, lines, notation, text, word, Accepted, Case, Refused, Source};

pub const GROUPS: &[super::Group] = &[
    ("book_texts", texts),
    ("book_bytes", bytes),
    ("book_counts", counts),
    ("book_repeats", repeats),
    ("book_comes_first", comes_first),
];

/// The book beside a guide, a listing and a plate that are all accepted.
fn beside_all(book: &[u8], bad_line: Option<usize>) -> Vec<Case> {
    let expected = match bad_line {
        Some(line) => Refused(1, line),
        None => Accepted,
    };
    let plate = Case {
        source: Source::Plate,
        input: vec![0, 0],
        book: book.to_vec(),
        expected: expected.clone(),
    };
    vec![
        case(Source::Guide, "print,aa\n", book, expected.clone()),
        case(Source::Listing, "print,aa\n", book, expected),
        plate,
    ]
}

fn table(books: &[(&str, Option<usize>)]) -> Vec<Case> {
    let cases = books.iter().map(|(book, bad)| beside_all(book.as_bytes(), *bad));
    cases.flatten().collect()
}

/// Texts of 0, 1, 64 and 65 bytes, and the last LF missing.
fn texts() -> Vec<Case> {
    let end = |length| text(length) + "\n";
    table(&[
        ("", None),
        ("a", Some(1)),
        ("\n", Some(1)),
        ("a\n\n", Some(2)),
        ("a\n\nb\n", Some(2)),
        ("a\nb", Some(2)),
        ("\nb", Some(1)),
        (&end(1), None),
        (&end(63), None),
        (&end(64), None),
        (&end(65), Some(1)),
        (&text(64), Some(1)),
        (&format!("a\nb\n{}c\n", end(64)), None),
        (&format!("a\nb\n{}c\n", end(65)), Some(3)),
    ])
}

/// Every byte inside a text, and those near the limits at its start and end.
fn bytes() -> Vec<Case> {
    let mut cases = Vec::new();
    for byte in (0..=255).filter(|&byte| byte != b'\n') {
        let bad = !(32..=126).contains(&byte) || byte == b',';
        let mut add = |before: &[u8], after: &[u8]| {
            let book = [b"a\n", before, &[byte], after, b"\nd\n"].concat();
            cases.extend(beside_all(&book, bad.then_some(2)));
        };
        add(b"b", b"c");
        if NEAR_LIMITS.contains(&byte) {
            add(b"", b"bc");
            add(b"bc", b"");
        }
    }
    cases
}

/// 255, 256 and 257 phrases.
fn counts() -> Vec<Case> {
    let words = |count| String::from_utf8(book_of(count)).expect("letters");
    table(&[
        (&words(255), None),
        (&words(256), None),
        (&words(257), Some(257)),
        (&words(258), Some(257)),
        (&(words(255) + "zz"), Some(256)),
        (&(words(256) + "zz"), Some(257)),
        (&(words(256) + "aa\n"), Some(257)),
        (&(words(256) + "\n"), Some(257)),
        (&lines(256, |place| word(place) + &text(62)), None),
    ])
}

fn repeats() -> Vec<Case> {
    let words = |count| String::from_utf8(book_of(count)).expect("letters");
    table(&[
        ("a\na\n", Some(2)),
        ("a\nb\na\n", Some(3)),
        ("a\nb\nb\n", Some(3)),
        ("a\nb\nc\nb\na\n", Some(4)),
        (&(words(255) + "aa\n"), Some(256)),
        (&(words(255) + &word(254) + "\n"), Some(256)),
        ("A\na\n", None),
        ("ab\na\nabc\nb\n", None),
        (" a\na\na \n", None),
        (&format!("{0}y\n{0}z\n", text(63)), None),
        (&format!("{0}y\n{0}y\n", text(63)), Some(2)),
        // The first bad line, by whatever fault.
        ("a\na\n\n", Some(2)),
        ("\na\na\n", Some(1)),
        ("a,b\nc", Some(1)),
        ("a\na\nb,c\n", Some(2)),
    ])
}

/// 1 comes before every other cause of the other inputs.
fn comes_first() -> Vec<Case> {
    let too_long = [text(16_385), text(327_681)];
    let mut cases = vec![
        case(Source::Guide, &too_long[0], b"\n", Refused(1, 1)),
        case(Source::Guide, &too_long[0], b"a\n", Refused(2, 0)),
        case(Source::Guide, "x\n", b"a", Refused(1, 1)),
        case(Source::Listing, &too_long[1], b"a\na\n", Refused(1, 2)),
        case(Source::Listing, "goto,1\n", b"a\na\n", Refused(1, 2)),
    ];
    let plates = [vec![0; 2_954], vec![], notation::plate("0 1:10 110").bytes()];
    cases.extend(plates.map(|input| Case {
        source: Source::Plate,
        input,
        book: b"a\n,\n".to_vec(),
        expected: Refused(1, 2),
    }));
    cases
}
