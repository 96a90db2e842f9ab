//! The limits of bytes: 16,384, 327,680 and 2,953.

use super::{case, gives_plate, guide_and_listing, lines, notation, text, word};
use super::{Accepted, Case, Gives, OnlyWalked, Refused, Source};

pub const GROUPS: &[super::Group] = &[
    ("guide_bytes", guide_bytes),
    ("listing_bytes", listing_bytes),
    ("longest_listing", longest_listing),
    ("plate_bytes_written", plate_bytes_written),
    ("plate_bytes_read", plate_bytes_read),
];

/// A book of one phrase of 64 bytes, which takes 2 bits on a plate.
pub fn one_long_phrase() -> Vec<u8> {
    (text(64) + "\n").into_bytes()
}

/// An inputs line of 595 bytes, the longest there is.
pub fn longest_line() -> String {
    format!("inputs,31,{}\n", [(); 9].map(|()| text(64)).join(","))
}

/// 16,349 bytes on 31 lines, then a print with its LF.
pub fn long_guide(last_text: usize) -> String {
    let print = format!("print,{}\n", text(64));
    let last = format!("print,{}\n", "y".repeat(last_text));
    longest_line().repeat(27) + &print.repeat(4) + &last
}

/// 16,383, 16,384 and 16,385 bytes.
fn guide_bytes() -> Vec<Case> {
    let guide = |input: &str, book: &[u8], expected| case(Source::Guide, input, book, expected);
    let book = one_long_phrase();
    let without_lf = |text: String| text.trim_end().to_owned();
    vec![
        guide(&long_guide(27), &book, Accepted),
        guide(&long_guide(28), &book, Accepted),
        guide(&long_guide(29), &book, Refused(2, 0)),
        guide(&without_lf(long_guide(29)), &book, Refused(3, 32)),
        guide(&without_lf(long_guide(30)), &book, Refused(2, 0)),
        guide(&long_guide(28), b"", OnlyWalked),
        guide(&text(16_384), b"", Refused(3, 1)),
        guide(&"\u{1}".repeat(16_385), b"", Refused(2, 0)),
    ]
}

/// 327,680 bytes and one more. A listing of the first length is refused by
/// its lines: 512 of the longest have 304,640 bytes.
fn listing_bytes() -> Vec<Case> {
    let start = longest_line().repeat(512) + "print,a\n";
    let of = |length| start.clone() + &"z".repeat(length - start.len());
    let book = one_long_phrase();
    vec![
        case(Source::Listing, &of(327_680), &book, Refused(9, 513)),
        case(Source::Listing, &of(327_681), &book, Refused(2, 0)),
    ]
}

/// The longest listing of an accepted plate: 305,457 bytes, on 23,623 bits.
fn longest_listing() -> Vec<Case> {
    // 32 own phrases of together 561 characters.
    let own = |place| word(place) + &"y".repeat(if place == 0 { 32 } else { 15 });
    let phrases = lines(32, |place| format!("phrase,{}", own(place)));
    let spelled: String = (0..32).map(|place| format!("'{}';", own(place))).collect();
    let inputs = format!(" 001 31:5 10 0 6:3{}", " 10 0".repeat(8));
    let notation = format!("1 31:5 {spelled} 512:10{}", inputs.repeat(512));
    let listing = phrases + &longest_line().repeat(512);
    let plate = notation::plate(&notation).bytes();
    let book = one_long_phrase();
    vec![
        case(Source::Listing, &listing, &book, Gives(plate.clone())),
        Case { source: Source::Plate, input: plate, book, expected: Gives(listing.into_bytes()) },
    ]
}

/// Prints of 64 characters and others, as lines and in the plate's notation.
fn spelled_lines(prints: &[usize], inputs: &[usize]) -> (String, String) {
    let texts = |lengths: &[usize], each: fn(String) -> String| -> String {
        lengths.iter().map(|&length| each(text(length))).collect()
    };
    let lines = texts(prints, |text| format!("print,{text}\n"))
        + &texts(inputs, |text| format!("input,0,{text}\n"));
    let count = prints.len() + inputs.len();
    let notation = format!("0 {count}:10")
        + &texts(prints, |text| format!(" 010 00 '{text}';"))
        + &texts(inputs, |text| format!(" 000 0:5 00 '{text}';"));
    (lines, notation)
}

/// 2,953 bytes: 51 prints and 2 inputs with 23,624 bits and no filling.
fn full_plate() -> (String, String) {
    spelled_lines(&[64; 51], &[8, 9])
}

/// Plates of 23,617, 23,624, 23,625 and 23,631 bits, or 2,953 and 2,954 bytes.
fn plate_bytes_written() -> Vec<Case> {
    let mut cases = Vec::new();
    for (text, notation) in [spelled_lines(&[64; 51], &[8, 8]), full_plate()] {
        cases.extend(guide_and_listing(&text, b"", gives_plate(&notation)));
    }
    let prints = [&[64; 51][..], &[2; 3]].concat();
    let one_bit_more = spelled_lines(&prints, &[3, 3]).0;
    let seven_bits_more = spelled_lines(&[64; 51], &[9, 9]).0;
    for text in [one_bit_more, seven_bits_more, "print,abcdefg\n".repeat(512)] {
        cases.push(case(Source::Guide, &text, b"", OnlyWalked));
        cases.push(case(Source::Listing, &text, b"", Refused(10, 0)));
    }
    // 7 for an open if and 8 come before 10.
    let long = format!("print,{}\n", text(64)).repeat(52);
    let open_if = long.clone() + "if,0,eq,0\n";
    cases.push(case(Source::Guide, &open_if, b"", Refused(7, 53)));
    let past_end = long + "goto,1\n";
    cases.push(case(Source::Listing, &past_end, b"", Refused(8, 53)));
    cases
}

/// 2,953 and 2,954 bytes read; 10 comes before any field.
fn plate_bytes_read() -> Vec<Case> {
    let plate = |input, expected| Case { source: Source::Plate, input, book: Vec::new(), expected };
    let (text, notation) = full_plate();
    let full = notation::plate(&notation).bytes();
    let spare_byte = [&full[..], &[0]].concat();
    let mut one_less = full.clone();
    one_less.pop();
    // Without its last byte the plate lacks ETX and a bit of the character before.
    let last_character = 23_624 - 14;
    vec![
        plate(full, Gives(text.into_bytes())),
        plate(one_less, Refused(12, last_character)),
        plate(spare_byte, Refused(10, 0)),
        plate(vec![0; 2_952], Refused(15, 11)),
        plate(vec![0; 2_953], Refused(15, 11)),
        plate(vec![0; 2_954], Refused(10, 0)),
        plate(vec![255; 2_954], Refused(10, 0)),
        plate(vec![0; 5_000], Refused(10, 0)),
    ]
}
