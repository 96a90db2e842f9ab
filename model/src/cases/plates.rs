//! The fields of a plate: causes 8 and 12 to 15 with their bits.

use super::{notation, read_as, refused_at_mark, text, word};
use super::{Accepted, Case, Refused, Source};

pub const GROUPS: &[super::Group] = &[
    ("plate_characters", characters),
    ("plate_text_lengths", text_lengths),
    ("plate_own_phrases", own_phrases),
    ("plate_counts", counts),
    ("plate_codes", codes),
    ("plate_texts", texts),
    ("plate_skips", skips),
    ("plate_filling", filling),
    ("plate_order", order),
];

/// Every 7-bit character, in an own phrase and in a text.
fn characters() -> Vec<Case> {
    let mut cases = Vec::new();
    for value in (0..=127).filter(|&value| value != 3) {
        if (32..=126).contains(&value) && value != 44 {
            let character = char::from(value);
            let phrase = format!("1 0:5 'a' {value}:7 'b' ; 0:10");
            cases.push(read_as(&phrase, b"", &format!("phrase,a{character}b\n")));
            let text = format!("0 1:10 010 00 'a' {value}:7 'b';");
            cases.push(read_as(&text, b"", &format!("print,a{character}b\n")));
        } else {
            for place in ["1 0:5", "0 1:10 010 00"] {
                let inside = format!("{place} 'a' ^{value}:7 'b' ; 0:10");
                cases.push(refused_at_mark(14, &inside, b""));
                let first = format!("{place} ^{value}:7 ; 0:10");
                cases.push(refused_at_mark(14, &first, b""));
            }
        }
    }
    cases
}

/// Texts of 0, 1, 64, 65 and more characters, judged at ETX.
fn text_lengths() -> Vec<Case> {
    let mut cases = Vec::new();
    for length in [1, 2, 63, 64] {
        let text = text(length);
        let phrase = format!("1 0:5 '{text}'; 0:10");
        cases.push(read_as(&phrase, b"", &format!("phrase,{text}\n")));
        let print = format!("0 1:10 010 00 '{text}';");
        cases.push(read_as(&print, b"", &format!("print,{text}\n")));
    }
    let places = [
        "1 0:5",
        "1 1:5 'p';",
        "0 1:10 000 0:5 00",
        "0 1:10 001 0:5 00",
        "0 1:10 001 0:5 00 'a'; 0:3 00",
        "0 1:10 001 0:5 00 'a'; 0:3 00 'b'; 00",
        "0 1:10 010 00",
        "0 1:10 011 00",
    ];
    for place in places {
        for length in [0, 65, 66, 128] {
            let notation = format!("{place} ^'{}'; 0:10", text(length));
            cases.push(refused_at_mark(14, &notation, b""));
        }
        // Characters past the 64th come first, one by one; so does the cut.
        let bad_character = format!("{place} '{}' ^44:7 ;", text(65));
        cases.push(refused_at_mark(14, &bad_character, b""));
        let cut = format!("{place} '{}' ^", text(70));
        cases.push(refused_at_mark(12, &cut, b""));
    }
    cases
}

/// 1 and 32 own phrases, and repeated ones.
fn own_phrases() -> Vec<Case> {
    let all: String = (0..32).map(|place| format!("'{}';", word(place))).collect();
    let listing = super::lines(32, |place| format!("phrase,{}", word(place)));
    let last_repeated = format!("1 31:5 {} ^'aa'; 0:10", &all[..31 * 5]);
    vec![
        read_as("1 0:5 'a'; 0:10", b"", "phrase,a\n"),
        read_as("1 1:5 'a'; 'b'; 0:10", b"c\n", "phrase,a\nphrase,b\n"),
        read_as(&format!("1 31:5 {all} 0:10"), b"", &listing),
        refused_at_mark(14, "1 1:5 'a'; ^'a'; 0:10", b""),
        refused_at_mark(14, "1 2:5 'a'; 'b'; ^'a'; 0:10", b""),
        refused_at_mark(14, &last_repeated, b""),
        refused_at_mark(14, "1 0:5 ^'a'; 0:10", b"a\n"),
        refused_at_mark(14, "1 1:5 'b'; ^'c'; 0:10", b"a\nc\n"),
        // Before n is read, and after each character.
        refused_at_mark(14, "1 1:5 'ab'; ^'ab'; 1023:10", b""),
        refused_at_mark(14, "1 1:5 'ab'; 'a' ^31:7", b""),
    ]
}

/// n of 0, 511, 512, 513 and 1023.
fn counts() -> Vec<Case> {
    let of = |count: usize| format!("0 {count}:10{}", " 010 10".repeat(count));
    let listing = |count| "print,a\n".repeat(count);
    vec![
        read_as("0 0:10", b"", ""),
        read_as(&of(1), b"a\n", &listing(1)),
        read_as(&of(511), b"a\n", &listing(511)),
        read_as(&of(512), b"a\n", &listing(512)),
        refused_at_mark(13, &of(513).replacen("513", "^513", 1), b"a\n"),
        refused_at_mark(13, "0 ^513:10", b""),
        refused_at_mark(13, "0 ^1023:10", b""),
        refused_at_mark(13, "1 0:5 'a'; ^768:10", b""),
        // One instruction fewer or more than n says.
        refused_at_mark(12, "0 2:10 010 10 ^", b"a\n"),
        refused_at_mark(15, "0 1:10 010 10 ^010 10 010 10", b"a\n"),
    ]
}

/// Unused codes of instructions, OPs, options, texts and constants.
fn codes() -> Vec<Case> {
    let mut cases = vec![
        refused_at_mark(13, "0 1:10 ^110 00 'a';", b""),
        refused_at_mark(13, "0 1:10 ^111 00 'a';", b""),
        refused_at_mark(13, "0 2:10 010 00 'a'; ^110", b""),
        refused_at_mark(13, "0 1:10 101 0:5 ^6:3 00 0:16 0:9", b""),
        refused_at_mark(13, "0 1:10 101 0:5 ^7:3 00 0:16 0:9", b""),
        refused_at_mark(13, "0 1:10 101 0:5 5:3 ^10 0:16 0:9", b""),
        refused_at_mark(13, "0 1:10 101 0:5 5:3 ^11 0:32 0:9", b""),
        refused_at_mark(13, "0 1:10 001 0:5 00 'a'; ^7:3 00 'b'; 00 'c';", b""),
    ];
    for (code, op) in ["eq", "ne", "lt", "le", "gt", "ge"].iter().enumerate() {
        let notation = format!("0 1:10 101 31:5 {code}:3 00 -9:16 0:9");
        cases.push(read_as(&notation, b"", &format!("if,31,{op},-9,0\n")));
    }
    for options in 2..=8 {
        let texts = " 00 'b';".repeat(options);
        let notation = format!("0 1:10 001 30:5 00 'a'; {}:3{texts}", options - 2);
        let listing = format!("inputs,30,a{}\n", ",b".repeat(options));
        cases.push(read_as(&notation, b"", &listing));
    }
    for register in 0..=31 {
        let notation = format!("0 1:10 000 {register}:5 00 'a';");
        cases.push(read_as(&notation, b"", &format!("input,{register},a\n")));
    }
    cases
}

/// The codes of a text in each place of one, and phrases spelled out.
fn texts() -> Vec<Case> {
    let places = [
        "1:10 000 0:5",
        "1:10 001 0:5",
        "1:10 001 0:5 00 'x'; 0:3",
        "1:10 001 0:5 00 'x'; 0:3 00 'y';",
        "1:10 010",
        "1:10 011",
    ];
    let mut cases = Vec::new();
    for place in places {
        let unused = format!("0 {place} ^11 'a';");
        cases.push(refused_at_mark(13, &unused, b""));
        cases.push(refused_at_mark(13, &unused, b"b\n"));
        let no_phrases = format!("0 {place} ^10 'a';");
        cases.push(refused_at_mark(13, &no_phrases, b""));
        let of_book = format!("0 {place} 00 ^'a';");
        cases.push(refused_at_mark(14, &of_book, b"a\n"));
        let of_own = format!("1 0:5 'p'; {place} 00 ^'p';");
        cases.push(refused_at_mark(14, &of_own, b""));
        cases.push(refused_at_mark(14, &of_own, b"a\n"));
        let not_there = format!("0 {place} 10 ^3:2 'a';");
        cases.push(refused_at_mark(13, &not_there, b"a\nb\nc\n"));
    }
    cases.push(read_as("0 1:10 010 00 'ab';", b"a\nb\nabc\n", "print,ab\n"));
    cases.push(read_as("0 1:10 010 10", b"a\n", "print,a\n"));
    cases
}

/// Skips to n and one past it: 8 at the skip, before later fields.
fn skips() -> Vec<Case> {
    let prints = " 010 10".repeat(510);
    let branch = "101 0:5 0:3 00 0:16";
    vec![
        read_as("0 1:10 100 0:9", b"", "goto,0\n"),
        refused_at_mark(8, "0 1:10 100 ^1:9", b""),
        refused_at_mark(8, "0 1:10 100 ^511:9", b""),
        read_as(&format!("0 1:10 {branch} 0:9"), b"", "if,0,eq,0,0\n"),
        refused_at_mark(8, &format!("0 1:10 {branch} ^1:9"), b""),
        read_as("0 2:10 100 1:9 100 0:9", b"", "goto,1\ngoto,0\n"),
        refused_at_mark(8, "0 2:10 100 ^2:9 100 0:9", b""),
        refused_at_mark(8, "0 2:10 100 1:9 100 ^1:9", b""),
        refused_at_mark(8, "0 2:10 100 ^2:9 111 1:9", b""),
        refused_at_mark(8, "0 2:10 100 ^2:9", b""),
        refused_at_mark(8, "1 0:5 'p'; 1:10 100 ^1:9", b""),
        read_as(
            &format!("0 512:10 010 10 100 510:9{prints}"),
            b"a\n",
            &format!("print,a\ngoto,510\n{}", "print,a\n".repeat(510)),
        ),
        refused_at_mark(8, &format!("0 512:10 010 10 100 ^511:9{prints}"), b"a\n"),
        read_as(
            &format!("0 512:10 100 511:9 010 10{prints}"),
            b"a\n",
            &format!("goto,511\n{}", "print,a\n".repeat(511)),
        ),
    ]
}

/// Each filling bit set, for every number of filling bits, and spare bytes.
fn filling() -> Vec<Case> {
    let mut cases = Vec::new();
    for length in 1..=8 {
        let plate = notation::plate(&format!("0 1:10 010 00 '{}';", text(length)));
        let case =
            |input, expected| Case { source: Source::Plate, input, book: Vec::new(), expected };
        let end = plate.length();
        let bytes = plate.bytes();
        cases.push(case(bytes.clone(), Accepted));
        for bit in end..bytes.len() * 8 {
            let mut changed = bytes.clone();
            changed[bit / 8] |= 0x80 >> (bit % 8);
            cases.push(case(changed.clone(), Refused(15, end)));
            changed.push(0);
            cases.push(case(changed, Refused(15, end)));
        }
        for spare in [&[0][..], &[255], &[1], &[128], &[0, 0], &[0, 1], &[0; 100]] {
            let longer = [&bytes[..], spare].concat();
            cases.push(case(longer, Refused(15, end)));
        }
    }
    cases.push(refused_at_mark(15, "0 0:10 ^0:13", b""));
    cases.push(refused_at_mark(15, "0 0:10 ^00001", b""));
    cases
}

/// 12 before any look at the bits that are there, and other orders.
fn order() -> Vec<Case> {
    vec![
        refused_at_mark(12, "^", b""),
        refused_at_mark(12, "0 ^", b""),
        refused_at_mark(12, "0 ^1111111", b""),
        refused_at_mark(12, "1 00000 ^", b""),
        refused_at_mark(12, "1 00000 ^11", b""),
        refused_at_mark(12, "1 11111 'a' ^111", b""),
        refused_at_mark(12, "0 1:10 011 00 ^", b""),
        // A field's cause before those of later fields.
        refused_at_mark(14, "1 00000 ^; 1023:10", b""),
        refused_at_mark(13, "0 ^1023:10 111", b""),
        refused_at_mark(13, "0 1:10 101 0:5 ^6:3 11", b""),
        refused_at_mark(14, "0 1:10 101 0:5 0:3 01 ^5:32 9:9", b""),
        refused_at_mark(8, "0 1:10 101 0:5 0:3 00 5:16 ^9:9 1", b""),
        refused_at_mark(13, "0 1:10 001 0:5 00 'a'; ^7:3", b""),
        refused_at_mark(14, "0 1:10 001 0:5 00 ^'a'; 7:3", b"a\n"),
    ]
}
