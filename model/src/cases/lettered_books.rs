//! Letters beyond ASCII in books, the lengths of texts that have some, and phrases.

use super::utf8::{self, text_of, ILL_FORMED};
use super::{gives_plate, guide_and_listing, lines, read_as, with_own_phrases, word};
use super::{Case, Refused};

pub const GROUPS: &[super::Group] = &[
    ("letters_in_books", in_books),
    ("bad_letters_in_books", bad_letters),
    ("letter_lengths", lengths),
    ("letters_of_phrases", of_phrases),
];

/// A book beside a guide, a listing and a plate that use its second phrase.
fn beside_all(book: &[u8], text: &[u8]) -> Vec<Case> {
    let plate = "0 1:10 010 10 1:2";
    let line = [b"print,", text, b"\n"].concat();
    let mut cases = guide_and_listing(&line, book, gives_plate(plate));
    cases.push(read_as(plate, book, line));
    cases
}

/// The same with a book that is refused at a line.
fn refused_beside_all(book: &[u8], text: &[u8], line: usize) -> Vec<Case> {
    let cases = beside_all(book, text).into_iter();
    cases.map(|case| Case { expected: Refused(1, line), ..case }).collect()
}

/// Every letter and every sequence that is none, inside a phrase.
fn in_books() -> Vec<Case> {
    let mut cases = Vec::new();
    for (bytes, well_formed) in utf8::all() {
        let text = [b"b", &bytes[..], b"c"].concat();
        let book = [b"a\n", &text[..], b"\nd\n"].concat();
        cases.extend(match well_formed {
            true => beside_all(&book, &text),
            false => refused_beside_all(&book, &text, 2),
        });
    }
    // Two spellings of one sight are two texts.
    let book = "é\ne\u{301}\nE\u{301}\n";
    cases.extend(beside_all(book.as_bytes(), "e\u{301}".as_bytes()));
    cases
}

/// Sequences that are no letters alone, at the start and at the end of a phrase, and
/// other faults beside letters.
fn bad_letters() -> Vec<Case> {
    let mut cases = Vec::new();
    for bytes in ILL_FORMED {
        for [before, after] in [[&b""[..], b""], [b"b", b""], [b"", b"b"]] {
            let book = [b"a\n", before, bytes, after, b"\nd\n"].concat();
            cases.extend(refused_beside_all(&book, b"a", 2));
        }
    }
    let table: [(&[u8], usize); 7] = [
        (b"\xC3\n\xA9\n", 1),
        (b"a\n\xC3,\xA9\n", 2),
        (b"a\n\xC3\xA9\n\xC3\xA9\n", 3),
        (b"a\n\xC3\xA9\nb\xC3", 3),
        (b"a\n\xC3\xA9\nb\xC3\xA9", 3),
        (b"a\n\xC3\xA9\x7F\nb\n", 2),
        (b"a\n\xC3\xA9,\nb\n", 2),
    ];
    for (book, line) in table {
        cases.extend(refused_beside_all(book, b"a", line));
    }
    cases
}

/// Texts of 2, 62 to 66 and more bytes, of letters of 2, 3 and 4 bytes: bytes
/// count, not letters.
fn lengths() -> Vec<Case> {
    let mut cases = Vec::new();
    for letter in ["é", "€", "😀"] {
        for bytes in [letter.len(), 62, 63, 64, 65, 66, 64 + letter.len(), 128] {
            cases.extend(of_length(&text_of(letter, bytes)));
        }
    }
    cases
}

/// A text in each kind of line and in a book.
fn of_length(text: &str) -> Vec<Case> {
    let print = format!("print,{text}\n");
    let fits = text.len() <= 64;
    let options = format!("0 1:10 001 9:5 01 <{text}>| 0:3 00 'a'; 01 <{text}>|");
    let table = [
        (print, format!("0 1:10 010 01 <{text}>|")),
        (format!("printex,{text}\n"), format!("0 1:10 011 01 <{text}>|")),
        (format!("input,9,{text}\n"), format!("0 1:10 000 9:5 01 <{text}>|")),
        (format!("inputs,9,{text},a,{text}\n"), options),
    ];
    let mut cases = Vec::new();
    for (line, plate) in table {
        let expected = if fits { gives_plate(&plate) } else { Refused(5, 1) };
        cases.extend(guide_and_listing(line, b"", expected));
    }
    let book = format!("a\n{text}\nb\n");
    cases.extend(match fits {
        true => beside_all(book.as_bytes(), text.as_bytes()),
        false => refused_beside_all(book.as_bytes(), text.as_bytes(), 2),
    });
    cases
}

const BOOK: &str = "Łódź\nSão João\nTāwhiao\n";

/// A text that is a phrase is written as one, with letters too, and another is not.
fn of_phrases() -> Vec<Case> {
    let table = [
        ("print,Łódź\n", "0 1:10 010 10 0:2"),
        ("printex,Tāwhiao\n", "0 1:10 011 10 2:2"),
        ("print,Łódz\n", "0 1:10 010 01 <Łódz>|"),
        ("print,Lodz\n", "0 1:10 010 00 'Lodz';"),
        ("print,Łódź \n", "0 1:10 010 01 <Łódź >|"),
        ("print,łódź\n", "0 1:10 010 01 <łódź>|"),
        (
            "inputs,4,São João,Sa\u{303}o João,Łódź,Ōtorohanga,no\n",
            "0 1:10 001 4:5 10 1:2 2:3 01 <Sa\u{303}o João>| 10 0:2 01 <Ōtorohanga>| 00 'no';",
        ),
    ];
    let mut cases = Vec::new();
    for (line, plate) in table {
        cases.extend(guide_and_listing(line, BOOK.as_bytes(), gives_plate(plate)));
        cases.push(read_as(plate, BOOK.as_bytes(), line));
    }
    let own = [
        ("phrase,p\nprint,Łódź\nprint,p\n", "1 0:5 'p'; 2:10 010 10 0 0:2 010 10 1"),
        ("phrase,Lodz\nprint,Łódz\nprint,Lodz\n", "1 0:5 'Lodz'; 2:10 010 01 <Łódz>| 010 10 1"),
    ];
    for (listing, plate) in own {
        cases.extend(with_own_phrases(listing, BOOK.as_bytes(), gives_plate(plate)));
        cases.push(read_as(plate, BOOK.as_bytes(), listing));
    }
    // A full book of phrases with letters: the last takes 8 bits.
    let full = lines(256, |place| format!("{}é", word(place)));
    let last = format!("print,{}é\n", word(255));
    cases.extend(guide_and_listing(&last, full.as_bytes(), gives_plate("0 1:10 010 10 255:8")));
    cases.push(read_as("0 1:10 010 10 255:8", full.as_bytes(), &last));
    cases
}
