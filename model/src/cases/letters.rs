//! Letters beyond ASCII on the lines of guides and listings.

use super::utf8::{self, ILL_FORMED};
use super::{case, gives_plate, guide_and_listing, lines, notation, with_own_phrases, word};
use super::{Accepted, Case, Expected, Refused, Source};

pub const GROUPS: &[super::Group] = &[
    ("letters_on_lines", on_lines),
    ("ill_formed_lines", ill_formed_lines),
    ("parted_letters", parted_letters),
    ("letters_in_fields", in_fields),
    ("letters_in_own_phrases", in_own_phrases),
    ("letters_in_order", in_order),
    ("letters_at_limits", at_limits),
];

fn joined(parts: &[&[u8]]) -> Vec<u8> {
    parts.concat()
}

/// Every letter and every sequence that is none, inside the text of a line.
fn on_lines() -> Vec<Case> {
    let mut cases = Vec::new();
    for (bytes, well_formed) in utf8::all() {
        let input = joined(&[b"print,a\nprint,b", &bytes, b"c\nprint,d\n"]);
        let spelled = notation::in_8_bits(&bytes);
        let plate = format!("0 3:10 010 00 'a'; 010 01 98:8{spelled} 99:8 | 010 00 'd';");
        let expected = if well_formed { gives_plate(&plate) } else { Refused(3, 2) };
        cases.extend(guide_and_listing(input, b"", expected));
    }
    cases
}

/// An ill-formed line is 3, wherever on it the fault stands and whatever else it has.
fn ill_formed_lines() -> Vec<Case> {
    let around: [[&[u8]; 2]; 9] = [
        [b"print,", b"\n"],
        [b"print,a", b"\n"],
        [b"print,", b"a\n"],
        [b"", b"print,a\n"],
        [b"print", b",a\n"],
        [b"input,", b",a\n"],
        [b"inputs,0,a,b,", b",c\n"],
        [b"", b"\n"],
        [b"print,a", b""],
    ];
    let mut cases = Vec::new();
    for bytes in ILL_FORMED {
        for [before, after] in around {
            let input = joined(&[b"print,a\n", before, bytes, after]);
            cases.extend(guide_and_listing(input, b"", Refused(3, 2)));
        }
    }
    cases
}

/// A comma or LF that parts the bytes of a letter, and a byte not allowed in one.
fn parted_letters() -> Vec<Case> {
    let mut cases = Vec::new();
    let parted: [(&[u8], usize); 9] = [
        (b"print,\xC3,\xA9\n", 1),
        (b"inputs,0,a,b\xC3,\xA9c\n", 1),
        (b"inputs,0,a,\xE2,\x82\xAC\n", 1),
        (b"inputs,0,a,\xE2\x82,\xAC\n", 1),
        (b"inputs,0,a,\xF0\x9F,\x98\x80\n", 1),
        (b"print,a\nprint,\xC3\n\xA9\n", 2),
        (b"print,a\nprint,\xE2\x82\n\xAC\n", 2),
        (b"print,\xC3\x7F\n", 1),
        (b"print,\xC3\x1F\n", 1),
    ];
    for (input, line) in parted {
        cases.extend(guide_and_listing(input, b"", Refused(3, line)));
    }
    cases
}

/// Lines with letters in a kind or a number, and the cause of each.
const IN_FIELDS: [(&str, u32); 25] = [
    ("é\n", 4),
    ("é,a\n", 4),
    ("print\u{FEFF},a\n", 4),
    ("\u{FEFF}print,a\n", 4),
    ("prínt,a\n", 4),
    ("print\u{301},a\n", 4),
    ("print,é,é\n", 4),
    ("print\u{80}\n", 4),
    ("phrasé,a\n", 4),
    ("phrase,é,é\n", 4),
    ("elsé\n", 4),
    ("fí\n", 4),
    ("input,é\n", 4),
    ("input,é,a,b\n", 4),
    ("inputs,é,a,b\n", 4),
    ("if,é,é\n", 4),
    ("input,é,a\n", 5),
    ("input,1é,a\n", 5),
    ("input,\u{661},a\n", 5),
    ("input,\u{FF11},a\n", 5),
    ("input,\u{80}1,a\n", 5),
    ("inputs,é,a,b,c\n", 5),
    ("inputs,31\u{10FFFF},a,b,c\n", 5),
    ("input,é,\n", 5),
    ("input,0,\n", 5),
];

/// Well-formed letters in a kind are 4, in R, OP, C and SKIP 5; a wrong count of
/// fields comes first.
fn in_fields() -> Vec<Case> {
    let mut cases = Vec::new();
    for (line, number) in IN_FIELDS {
        let input = format!("print,a\n{line}print,b\n");
        cases.extend(guide_and_listing(input, b"", Refused(number, 2)));
    }
    let tests = ["é,eq,0", "0é,eq,0", "0,é,0", "0,eqé,0", "0,\u{FEFF}eq,0", "0,eq,é"];
    let constants = ["0,eq,1é", "0,eq,\u{2212}1", "0,eq,1\u{301}", "0,eq,\u{661}"];
    for test in tests.into_iter().chain(constants) {
        cases.push(case(Source::Guide, format!("if,{test}\nfi\n"), b"", Refused(5, 1)));
        cases.push(case(Source::Guide, format!("if,{test},0\nfi\n"), b"", Refused(4, 1)));
        cases.push(case(Source::Listing, format!("if,{test},0\n"), b"", Refused(5, 1)));
        cases.push(case(Source::Listing, format!("if,{test}\n"), b"", Refused(4, 1)));
    }
    let listings = [
        ("goto,é\n", 5),
        ("goto,0é\n", 5),
        ("goto,\u{661}\n", 5),
        ("goto,é,0\n", 4),
        ("góto,0\n", 4),
        ("if,0,eq,0,é\n", 5),
        ("if,0,eq,0,0\u{80}\n", 5),
        ("if,0,eq,0,é,0\n", 4),
    ];
    cases.extend(
        listings.map(|(input, number)| case(Source::Listing, input, b"", Refused(number, 1))),
    );
    cases
}

/// Own phrases keep the old characters: another byte in one is 5, also where it is
/// late, the 33rd or repeated.
fn in_own_phrases() -> Vec<Case> {
    let full = lines(32, |place| format!("phrase,{}", word(place)));
    let mut cases = Vec::new();
    for letter in utf8::LETTERS {
        let input = format!("phrase,{letter}\n");
        cases.extend(guide_and_listing(input, b"", Refused(5, 1)));
        let input = format!("print,a\nphrase,b{letter}c\n");
        cases.extend(guide_and_listing(input, b"", Refused(5, 2)));
    }
    for bytes in ILL_FORMED {
        let input = joined(&[b"phrase,", bytes, b"\n"]);
        cases.extend(guide_and_listing(input, b"", Refused(3, 1)));
    }
    cases.extend(with_own_phrases("phrase,a\nphrase,é\n", b"", Refused(5, 2)));
    cases.extend(with_own_phrases(&(full.clone() + "phrase,é\n"), b"", Refused(5, 33)));
    cases.extend(with_own_phrases(
        &(full.clone() + "phrase,zz\n"),
        "é\n".as_bytes(),
        Refused(6, 33),
    ));
    cases.extend(guide_and_listing("phrase,é\n", "é\n".as_bytes(), Refused(5, 1)));
    cases.extend(guide_and_listing("phrase,é\nphrase,é\n", b"", Refused(5, 1)));
    cases.extend(guide_and_listing("print,é\nphrase,a\n", b"", Refused(6, 2)));
    cases.extend(guide_and_listing("phrase,é", b"", Refused(3, 1)));
    cases.extend(guide_and_listing("phrasé,a\n", b"", Refused(4, 1)));
    cases.extend(with_own_phrases("phrase,~\nprint,é\n", "ā\n".as_bytes(), Accepted));
    cases
}

/// 3 on a line before its other causes, and an earlier line before a later one.
fn in_order() -> Vec<Case> {
    let long = "é".repeat(33);
    let mut cases = Vec::new();
    let table: [(Vec<u8>, u32, usize); 8] = [
        (b"x\xC3\n".to_vec(), 3, 1),
        (b"print,,\xFF\n".to_vec(), 3, 1),
        (b"input,99,\xFF\n".to_vec(), 3, 1),
        (joined(&[b"print,", long.as_bytes(), b"\xC3\n"]), 3, 1),
        (joined(&[b"print,", long.as_bytes(), b"\n\xFF\n"]), 5, 1),
        (b"x\n\xFF\n".to_vec(), 4, 1),
        (b"print,a\nphrase,b\n\xFF\n".to_vec(), 6, 2),
        (b"\xFF\nphrase,b\n".to_vec(), 3, 1),
    ];
    for (input, number, line) in table {
        cases.extend(guide_and_listing(input, b"", Refused(number, line)));
    }
    let guides: [(&[u8], Expected); 7] = [
        (b"fi\xC3\n", Refused(3, 1)),
        ("fi\u{301}\n".as_bytes(), Refused(4, 1)),
        (b"fi\n\xC3\n", Refused(7, 1)),
        (b"if,0,eq,0\nprint,\xC3\n", Refused(3, 2)),
        ("if,0,eq,0\nprint,é\n".as_bytes(), Refused(7, 1)),
        ("if,0,eq,0\nprint,é\nelse\nfi\n".as_bytes(), Accepted),
        ("phrase,a\nprint,é\n".as_bytes(), Refused(6, 1)),
    ];
    cases.extend(guides.map(|(input, expected)| case(Source::Guide, input, b"", expected)));
    cases.push(case(Source::Guide, b"\xFF", b"\xFF", Refused(1, 1)));
    cases.push(case(Source::Listing, b"goto,9\nprint,\xE2\x82\n", b"", Refused(3, 2)));
    cases.push(case(Source::Listing, "goto,9\nprint,€\n", b"", Refused(8, 1)));
    cases
}

/// Behind 512 instructions 3, 4 and 5 come before 9; 2 comes before 3.
fn at_limits() -> Vec<Case> {
    let prints = "print,a\n".repeat(512);
    let table: [(&[u8], u32); 4] = [
        (b"print,\xC3\n", 3),
        ("é\n".as_bytes(), 4),
        ("phrase,é\n".as_bytes(), 5),
        ("print,é\n".as_bytes(), 9),
    ];
    let mut cases = Vec::new();
    for (line, number) in table {
        let input = joined(&[prints.as_bytes(), line]);
        cases.extend(guide_and_listing(input, b"", Refused(number, 513)));
    }
    cases.push(case(Source::Guide, b"\xFF".repeat(16_385), b"", Refused(2, 0)));
    cases.push(case(Source::Guide, b"\xFF".repeat(16_384), b"", Refused(3, 1)));
    cases
}
