//! Kinds, counts of fields and phrases in guides and listings.

use super::{book_of, case, gives_plate, guide_and_listing, lines, text, with_own_phrases, word};
use super::{Accepted, Case, Refused, Source};

pub const GROUPS: &[super::Group] = &[
    ("kinds", kinds),
    ("kinds_of_one_source", kinds_of_one_source),
    ("own_phrase_counts", own_phrase_counts),
    ("own_phrases_late", own_phrases_late),
    ("own_phrases_repeated", own_phrases_repeated),
    ("phrases_in_use", phrases_in_use),
];

/// Lines that are no kind of a guide or listing, or have a wrong count of fields.
const NO_KIND: &[&str] = &[
    "",
    " ",
    ",",
    ",,",
    "x",
    "print",
    "printex",
    "phrase",
    "input",
    "inputs",
    "input,0",
    "input,0,a,b",
    "inputs,0",
    "inputs,0,a",
    "inputs,0,a,b",
    "inputs,0,a,b,c,d,e,f,g,h,i,j",
    "print,a,b",
    "printex,a,b",
    "phrase,a,b",
    "prin,a",
    "prints,a",
    "printe,a",
    "printexx,a",
    "Print,a",
    "PRINT,a",
    " print,a",
    "print ,a",
    "print;a",
    "phras,a",
    "phrases,a",
    "Phrase,a",
    "inpu,0,a",
    "inputx,0,a",
    "Input,0,a",
    "Inputs,0,a,b,c",
    "inputss,0,a,b,c",
    ",print,a",
    "verdict,a",
    "if",
    "if,0",
    "if,0,eq",
    "if,0,eq,0,0,0",
    "If,0,eq,0",
    "iff,0,eq,0",
    "else,",
    "else ",
    "else,x",
    "Else",
    "els",
    "elses",
    "fi,",
    "fi ",
    "fi,x",
    "Fi",
    "f",
    "fii",
    "goto",
    "goto,0,0",
    "goto,,",
    "Goto,0",
    "got,0",
    "gotos,0",
    "input,99",
    "print,,",
    "inputs,99,,",
    "if,99,xx",
];

fn kinds() -> Vec<Case> {
    let mut cases = Vec::new();
    for line in NO_KIND {
        let input = format!("print,a\n{line}\nprint,b\n");
        cases.extend(guide_and_listing(&input, b"", Refused(4, 2)));
    }
    for line in ["print,b", "printex,b", "input,0,b", "inputs,0,b,c,d"] {
        let input = format!("{line}\nprint,b\n");
        cases.extend(guide_and_listing(&input, b"", Accepted));
        let input = format!("phrase,a\n{line}\nprint,b\n");
        cases.extend(with_own_phrases(&input, b"", Accepted));
    }
    cases
}

/// Kinds of guides alone, and of listings alone.
fn kinds_of_one_source() -> Vec<Case> {
    vec![
        case(Source::Guide, "goto,0\n", b"", Refused(4, 1)),
        case(Source::Guide, "goto,512\n", b"", Refused(4, 1)),
        case(Source::Guide, "if,0,eq,0,0\n", b"", Refused(4, 1)),
        case(Source::Guide, "if,0,eq,0,0\nfi\n", b"", Refused(4, 1)),
        case(Source::Guide, "if,0,eq,0\nfi\n", b"", Accepted),
        case(Source::Guide, "if,0,eq,0\nelse\nfi\n", b"", Accepted),
        case(Source::Listing, "if,0,eq,0\n", b"", Refused(4, 1)),
        case(Source::Listing, "print,a\nelse\n", b"", Refused(4, 2)),
        case(Source::Listing, "print,a\nfi\n", b"", Refused(4, 2)),
        case(Source::Listing, "goto,0\n", b"", gives_plate("0 1:10 100 0:9")),
        case(Source::Listing, "if,0,eq,0,0\n", b"", gives_plate("0 1:10 101 0:5 0:3 00 0:16 0:9")),
    ]
}

/// 1, 31, 32 and 33 own phrases.
fn own_phrase_counts() -> Vec<Case> {
    let phrases = |count| lines(count, |place| format!("phrase,{}", word(place)));
    let mut cases = Vec::new();
    for count in [1, 2, 31, 32] {
        let spelled: String = (0..count).map(|place| format!("'{}';", word(place))).collect();
        let plate = format!("1 {}:5 {spelled} 0:10", count - 1);
        cases.extend(with_own_phrases(&phrases(count), b"", gives_plate(&plate)));
    }
    let refused = [
        phrases(33),
        phrases(34),
        // The 33rd is 6 for being repeated too, and 5 for its text.
        phrases(32) + "phrase,aa\n",
    ];
    for input in refused {
        cases.extend(with_own_phrases(&input, b"", Refused(6, 33)));
    }
    let empty = phrases(32) + "phrase,\n";
    cases.extend(with_own_phrases(&empty, b"", Refused(5, 33)));
    let of_book = with_own_phrases(&phrases(32), &book_of(33)[32 * 3..], Accepted);
    cases.extend(of_book);
    cases
}

/// A phrase after a line of each other kind.
fn own_phrases_late() -> Vec<Case> {
    let mut cases = Vec::new();
    for line in ["print,a", "printex,a", "input,0,a", "inputs,0,a,b,c"] {
        let input = format!("{line}\nphrase,z\n");
        cases.extend(guide_and_listing(&input, b"", Refused(6, 2)));
        let input = format!("phrase,y\n{line}\nprint,a\nphrase,z\n");
        cases.extend(with_own_phrases(&input, b"", Refused(6, 4)));
    }
    let listings = [
        ("goto,0\nphrase,z\n", 2),
        ("if,0,eq,0,0\nphrase,z\n", 2),
        // 6 in its line comes before an 8 at the end.
        ("goto,9\nphrase,z\n", 2),
    ];
    cases.extend(listings.map(|(input, line)| case(Source::Listing, input, b"", Refused(6, line))));
    cases
}

/// Repeats of an own phrase and of the book's.
fn own_phrases_repeated() -> Vec<Case> {
    let long = text(64);
    let table = [
        ("phrase,a\nphrase,a\n", "", Refused(6, 2)),
        ("phrase,a\nphrase,b\nphrase,a\n", "", Refused(6, 3)),
        ("phrase,a\nphrase,b\nphrase,b\n", "", Refused(6, 3)),
        ("phrase,a\n", "a\n", Refused(6, 1)),
        ("phrase,b\nphrase,a\n", "x\ny\na\n", Refused(6, 2)),
        (&format!("phrase,{long}\nphrase,{long}\n"), "", Refused(6, 2)),
        (&format!("phrase,{long}\n"), &format!("{long}\n"), Refused(6, 1)),
        (&format!("phrase,{long}\n"), &format!("{}\n", text(63)), Accepted),
        ("phrase,a\nphrase,A\nphrase,ab\nphrase, a\nphrase,a \n", "b\n", Accepted),
        ("phrase,print\nphrase,fi\nphrase,0\nprint,fi\n", "else\n", Accepted),
    ];
    let cases =
        table.map(|(input, book, expected)| with_own_phrases(input, book.as_bytes(), expected));
    cases.concat()
}

/// A text that is a phrase is written as one, wherever it stands.
fn phrases_in_use() -> Vec<Case> {
    let of_book = [
        ("print,a\n", "a\n", "0 1:10 010 10"),
        ("printex,b\n", "a\nb\n", "0 1:10 011 10 1"),
        ("input,3,a\n", "a\nb\n", "0 1:10 000 3:5 10 0"),
        ("print,ab\n", "a\nb\n", "0 1:10 010 00 'ab';"),
        ("inputs,31,b,q,c,b\n", "a\nb\nc\n", "0 1:10 001 31:5 10 1:2 1:3 00 'q'; 10 2:2 10 1:2"),
    ];
    let mut cases = of_book
        .map(|(input, book, plate)| guide_and_listing(input, book.as_bytes(), gives_plate(plate)))
        .concat();
    let own = [
        ("phrase,p\nprint,p\n", "", "1 0:5 'p'; 1:10 010 10"),
        ("phrase,p\nprint,p\n", "a\n", "1 0:5 'p'; 1:10 010 10 1"),
        ("phrase,p\nprint,a\n", "a\n", "1 0:5 'p'; 1:10 010 10 0"),
        ("phrase,p\nprint,q\n", "a\n", "1 0:5 'p'; 1:10 010 00 'q';"),
        (
            "phrase,p\nphrase,q\ninputs,31,b,q,x,c,p\n",
            "a\nb\nc\n",
            "1 1:5 'p'; 'q'; 1:10 001 31:5 10 0 1:2 2:3 10 1 1 00 'x'; 10 0 2:2 10 1 0",
        ),
    ];
    for (input, book, plate) in own {
        cases.extend(with_own_phrases(input, book.as_bytes(), gives_plate(plate)));
    }
    cases
}
