//! The widths of places and of constants, written and read.

use super::{book_of, case, gives_plate, lines, read_as, refused_at_mark, word};
use super::{Case, Refused, Source};

pub const GROUPS: &[super::Group] = &[
    ("book_places", book_places),
    ("own_places", own_places),
    ("places_of_both", places_of_both),
    ("constants", constants),
    ("constants_outside", constants_outside),
];

/// Counts of phrases and the bits that a place takes.
const WIDTHS: [(usize, usize); 21] = [
    (1, 0),
    (2, 1),
    (3, 2),
    (4, 2),
    (5, 3),
    (8, 3),
    (9, 4),
    (16, 4),
    (17, 5),
    (18, 5),
    (31, 5),
    (32, 5),
    (33, 6),
    (63, 6),
    (64, 6),
    (65, 7),
    (127, 7),
    (128, 7),
    (129, 8),
    (255, 8),
    (256, 8),
];

/// A text, as listing and plate.
fn listed_and_read(text: &str, book: &[u8], notation: &str) -> [Case; 2] {
    let listed = case(Source::Listing, text, book, gives_plate(notation));
    [listed, read_as(notation, book, text)]
}

fn book_places() -> Vec<Case> {
    let mut cases = Vec::new();
    for (count, width) in WIDTHS {
        let book = book_of(count);
        for place in [0, count / 2, count - 1] {
            let text = format!("print,{}\n", word(place));
            let notation = format!("0 1:10 010 10 {place}:{width}");
            cases.push(case(Source::Guide, &text, &book, gives_plate(&notation)));
            cases.extend(listed_and_read(&text, &book, &notation));
        }
        if count < 1 << width {
            let notation = format!("0 1:10 010 10 ^{count}:{width}");
            cases.push(refused_at_mark(13, &notation, &book));
        }
        let spelled = format!("0 1:10 010 00 ^'{}';", word(count - 1));
        cases.push(refused_at_mark(14, &spelled, &book));
    }
    cases
}

/// Own phrases as lines, and as they begin a plate.
fn own_phrases(count: usize) -> (String, String) {
    let own = |place| format!("own {}", word(place));
    let spelled: String = (0..count).map(|place| format!("'{}';", own(place))).collect();
    let text = lines(count, |place| format!("phrase,{}", own(place)));
    (text, format!("1 {}:5 {spelled}", count - 1))
}

fn own_places() -> Vec<Case> {
    let mut cases = Vec::new();
    for (count, width) in WIDTHS.into_iter().filter(|&(count, _)| count <= 32) {
        let (text, notation) = own_phrases(count);
        for place in [0, count / 2, count - 1] {
            let text = format!("{text}printex,own {}\n", word(place));
            let notation = format!("{notation} 1:10 011 10 {place}:{width}");
            cases.extend(listed_and_read(&text, b"", &notation));
        }
        if count < 1 << width {
            let notation = format!("{notation} 1:10 011 10 ^{count}:{width}");
            cases.push(refused_at_mark(13, &notation, b""));
        }
        let spelled = format!("{notation} 1:10 011 00 ^'own {}';", word(count - 1));
        cases.push(refused_at_mark(14, &spelled, b""));
    }
    cases
}

/// With phrases in the book and own ones, a bit says which.
fn places_of_both() -> Vec<Case> {
    let mut cases = Vec::new();
    let pairs = [(1, 0, 1, 0), (1, 0, 3, 2), (3, 2, 1, 0), (256, 8, 32, 5), (17, 5, 2, 1)];
    for (in_book, book_width, own, own_width) in pairs {
        let book = book_of(in_book);
        let (text, notation) = own_phrases(own);
        let last = [in_book - 1, own - 1];
        let text = format!("{text}print,{}\nprint,own {}\n", word(last[0]), word(last[1]));
        let of_book = format!("010 10 0 {}:{book_width}", last[0]);
        let of_own = format!("010 10 1 {}:{own_width}", last[1]);
        let both = format!("{notation} 2:10 {of_book} {of_own}");
        cases.extend(listed_and_read(&text, &book, &both));
        if in_book < 1 << book_width {
            let past = format!("{notation} 1:10 010 10 0 ^{in_book}:{book_width}");
            cases.push(refused_at_mark(13, &past, &book));
        }
        if own < 1 << own_width {
            let past = format!("{notation} 1:10 010 10 1 ^{own}:{own_width}");
            cases.push(refused_at_mark(13, &past, &book));
        }
    }
    cases
}

/// Constants about 2^15 and 2^31, with the bits they take.
fn constants() -> Vec<Case> {
    let short = [0, 1, -1, 255, 32_766, 32_767, -32_767, -32_768];
    let long = [
        32_768,
        32_769,
        -32_769,
        -32_770,
        65_535,
        65_536,
        -65_536,
        i32::MAX - 1,
        i32::MAX,
        i32::MIN + 1,
        i32::MIN,
    ];
    let mut cases = Vec::new();
    let short = short.map(|constant| (constant, "00", 16));
    let long = long.map(|constant| (constant, "01", 32));
    for (constant, code, width) in short.into_iter().chain(long) {
        let notation = format!("0 1:10 101 7:5 2:3 {code} {constant}:{width} 0:9");
        let guide = format!("if,7,lt,{constant}\nfi\n");
        let listing = format!("if,7,lt,{constant},0\n");
        cases.push(case(Source::Guide, &guide, b"", gives_plate(&notation)));
        cases.push(case(Source::Listing, &listing, b"", gives_plate(&notation)));
        cases.push(read_as(&notation, b"", &listing));
    }
    for (constant, _, _) in short {
        // 14 at the number, before the skip is read.
        let notation = format!("0 1:10 101 7:5 2:3 01 ^{constant}:32 0:9");
        cases.push(refused_at_mark(14, &notation, b""));
        let cut_after_it = format!("0 1:10 101 7:5 2:3 01 ^{constant}:32");
        cases.push(refused_at_mark(14, &cut_after_it, b""));
    }
    cases
}

/// Constants past 2^31 either way.
fn constants_outside() -> Vec<Case> {
    let constants = [
        "2147483648",
        "2147483649",
        "-2147483649",
        "-2147483650",
        "3000000000",
        "4294967295",
        "4294967296",
        "-4294967296",
        "9999999999",
        "-9999999999",
        "10000000000",
        "18446744073709551616",
        "99999999999999999999999999",
        "02147483647",
    ];
    let mut cases = Vec::new();
    for constant in constants {
        let guide = format!("print,a\nif,7,lt,{constant}\nfi\n");
        cases.push(case(Source::Guide, &guide, b"", Refused(5, 2)));
        let listing = format!("print,a\nif,7,lt,{constant},0\n");
        cases.push(case(Source::Listing, &listing, b"", Refused(5, 2)));
    }
    cases
}
