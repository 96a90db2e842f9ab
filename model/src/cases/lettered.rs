//! Texts of code 01 on a plate: 8 bits to a byte, ended by 00000011.

use super::utf8::{self, text_of, ILL_FORMED};
use super::{case, guide_and_listing, notation, read_as, refused_at_mark};
use super::{Case, Gives, OnlyWalked, Refused, Source};

pub const GROUPS: &[super::Group] = &[
    ("plate_letters", letters),
    ("plate_ill_formed", ill_formed),
    ("plate_bytes", bytes),
    ("plate_letter_lengths", lengths),
    ("plate_codes_of_texts", codes_of_texts),
    ("plate_letters_in_order", in_order),
    ("plates_full_of_letters", full_plates),
];

/// What stands before the code of a text, in each place of one, and what follows it
/// as a listing.
const PLACES: [&str; 6] = [
    "1:10 000 0:5",
    "1:10 001 0:5",
    "1:10 001 0:5 00 'x'; 0:3",
    "1:10 001 0:5 00 'x'; 0:3 01 <ÿ>|",
    "1:10 010",
    "1:10 011",
];

/// Every letter and every sequence that is none. An ill-formed text is 14 at its
/// first character; a byte 127 in it is 14 at its own.
fn letters() -> Vec<Case> {
    let mut cases = Vec::new();
    for (bytes, well_formed) in utf8::all() {
        let spelled = notation::in_8_bits(&bytes);
        cases.push(if well_formed {
            let listing = [b"print,b", &bytes[..], b"c\n"].concat();
            read_as(&format!("0 1:10 010 01 98:8{spelled} 99:8 |"), b"", listing)
        } else {
            refused_at_mark(14, &marked(&format!("98:8{spelled} 99:8")), b"")
        });
    }
    cases
}

/// A print of these bytes, with the mark at a byte 127 or else at the first.
fn marked(bytes: &str) -> String {
    match bytes.contains(" 127:8") {
        true => format!("0 1:10 010 01 {} |", bytes.replace(" 127:8", " ^127:8")),
        false => format!("0 1:10 010 01 ^{bytes} |"),
    }
}

/// Sequences that are no letters, as the whole text, at its start and at its end,
/// in each place of a text.
fn ill_formed() -> Vec<Case> {
    let mut cases = Vec::new();
    for bytes in ILL_FORMED {
        let spelled = notation::in_8_bits(bytes);
        for [before, after] in [["", ""], ["<é>", ""], ["", "<é>"]] {
            let text = format!("0 1:10 010 01 ^{before}{spelled} {after}|");
            cases.push(refused_at_mark(14, &text, b""));
            cases.push(refused_at_mark(14, &text, "é\n".as_bytes()));
        }
    }
    for place in PLACES {
        for bytes in ["195:8", "169:8", "192:8 175:8", "237:8 160:8 128:8", "255:8"] {
            cases.push(refused_at_mark(14, &format!("0 {place} 01 ^{bytes} | 0:10"), b""));
        }
        // ETX inside a letter ends the text.
        let cut = format!("0 {place} 01 ^226:8 130:8 | 172:8 |");
        cases.push(refused_at_mark(14, &cut, b""));
    }
    cases
}

/// Each byte behind a letter: one below 32 but for ETX, a comma and 127 are 14 at
/// that character, at once.
fn bytes() -> Vec<Case> {
    let mut cases = Vec::new();
    for byte in (0..=255).filter(|&byte| byte != 3) {
        let (text, listing) = (format!("<é> {byte}:8"), char::from(byte));
        cases.push(match byte {
            32..=43 | 45..=126 => {
                let listing = format!("print,é{listing}b\n");
                read_as(&format!("0 1:10 010 01 {text} <b>|"), b"", listing)
            }
            0..=44 | 127 => refused_at_mark(14, &format!("0 1:10 010 01 <é> ^{byte}:8 <b>|"), b""),
            _ => refused_at_mark(14, &format!("0 1:10 010 01 ^{text} <b>|"), b""),
        });
    }
    for place in PLACES {
        for byte in [0, 10, 31, 44, 127] {
            // As the first character, inside a letter, and with no ETX behind it.
            for text in [format!("^{byte}:8 <é>|"), format!("195:8 ^{byte}:8 169:8 |")] {
                cases.push(refused_at_mark(14, &format!("0 {place} 01 {text}"), b""));
            }
            cases.push(refused_at_mark(14, &format!("0 {place} 01 <é> ^{byte}:8"), b""));
        }
    }
    cases
}

/// Texts of 0, 2, 64 and more bytes, judged at ETX.
fn lengths() -> Vec<Case> {
    let mut cases = Vec::new();
    for letter in ["é", "€", "😀"] {
        for length in [letter.len(), 62, 63, 64] {
            let text = text_of(letter, length);
            let plate = format!("0 1:10 010 01 <{text}>|");
            cases.push(read_as(&plate, b"", format!("print,{text}\n")));
        }
        for length in [65, 66, 64 + letter.len(), 128, 500] {
            let plate = format!("0 1:10 010 01 ^<{}>|", text_of(letter, length));
            cases.push(refused_at_mark(14, &plate, b""));
        }
    }
    for place in PLACES {
        let long = text_of("é", 66);
        cases.push(refused_at_mark(14, &format!("0 {place} 01 ^|"), b""));
        cases.push(refused_at_mark(14, &format!("0 {place} 01 ^<{long}>| 0:20"), b""));
        // Characters past the 64th come first, one by one; so does the cut.
        cases.push(refused_at_mark(14, &format!("0 {place} 01 <{long}> ^44:8 |"), b""));
        let cut = notation::plate(&format!("0 {place} 01 <{long}>"));
        let left_out = cut.length() % 8;
        let input = cut.bytes()[..cut.length() / 8].to_vec();
        let character = cut.length() - if left_out == 0 { 0 } else { 8 };
        let case = case(Source::Plate, input, b"", Refused(12, character));
        cases.push(case);
    }
    cases
}

/// ASCII by 01, and phrases spelled out by 01, are 14; code 11 stays 13.
fn codes_of_texts() -> Vec<Case> {
    let mut cases = Vec::new();
    for place in PLACES {
        for text in ["a", "OK", " ", "~", &"x".repeat(64)] {
            let ascii = format!("0 {place} 01 ^<{text}>|");
            cases.push(refused_at_mark(14, &ascii, b""));
            cases.push(refused_at_mark(14, &ascii, b"a\n"));
        }
        let of_book = format!("0 {place} 01 ^<é>|");
        cases.push(refused_at_mark(14, &of_book, "é\n".as_bytes()));
        cases.push(refused_at_mark(14, &of_book, "a\nb\né\n".as_bytes()));
        // An own phrase is ASCII, so spelled by 01 it is 14 twice over.
        cases.push(refused_at_mark(14, &format!("1 0:5 'p'; {place} 01 ^<p>|"), b""));
        for book in [&b""[..], b"a\n"] {
            cases.push(refused_at_mark(13, &format!("0 {place} ^11 <é>|"), book));
        }
        cases.push(refused_at_mark(13, &format!("0 {place} ^10 <é>|"), b""));
        cases.push(refused_at_mark(13, &format!("0 {place} 10 ^3:2 <é>|"), "ā\né\nō\n".as_bytes()));
    }
    let spelled = "0 1:10 010 01 <éa>|";
    cases.push(read_as(spelled, "é\na\néab\n".as_bytes(), "print,éa\n"));
    cases.push(read_as("0 1:10 010 10", "é\n".as_bytes(), "print,é\n"));
    cases.push(read_as("0 1:10 010 00 'e';", "é\n".as_bytes(), "print,e\n"));
    cases
}

/// 12 at each character that does not fit, before any look at its bits; then the
/// first fault of a field.
fn in_order() -> Vec<Case> {
    vec![
        refused_at_mark(12, "0 1:10 010 01 ^", b""),
        refused_at_mark(12, "0 1:10 000 0:5 01 ^111", b""),
        refused_at_mark(12, "0 1:10 010 01 <é> ^", b""),
        refused_at_mark(12, "0 1:10 000 0:5 01 195:8 ^101", b""),
        refused_at_mark(12, "0 1:10 000 0:5 01 <Tāwhiao> ^000", b""),
        refused_at_mark(12, "0 1:10 010 01 <abc> ^", b""),
        refused_at_mark(12, "0 2:10 010 01 <é>| ^", b""),
        refused_at_mark(13, "0 2:10 010 01 <é>| ^110", b""),
        refused_at_mark(14, "0 2:10 010 01 ^<e>| 110", b""),
        refused_at_mark(14, "0 2:10 010 01 ^195:8 | 110", b""),
        refused_at_mark(14, "0 2:10 010 01 <é> ^44:8 | 110", b""),
        refused_at_mark(14, "0 2:10 010 01 195:8 ^31:8", b""),
        refused_at_mark(13, "0 1:10 001 0:5 01 <é>| ^7:3", b""),
        refused_at_mark(14, "0 1:10 001 0:5 01 ^<é>| 7:3", "é\n".as_bytes()),
        refused_at_mark(8, "0 2:10 010 01 <é>| 100 ^1:9", b""),
        refused_at_mark(15, "0 1:10 010 01 <é>| ^1", b""),
        refused_at_mark(15, "0 1:10 010 01 <é>| ^0:8", b""),
        // ETX in 7 bits is no ETX here, nor 8 bits there.
        refused_at_mark(14, "0 1:10 010 01 <é> ^; 0:16", b""),
        refused_at_mark(14, "0 1:10 010 00 'e' ^| 0:16", b""),
        // An own phrase is of 7 bits to a character.
        refused_at_mark(14, "1 0:5 'a' ^| 0:10", b""),
        refused_at_mark(14, "1 1:5 'a'; ^<\u{1}>; 0:10", b""),
    ]
}

/// 46 prints with 23,624 bits: 43 of 64 bytes of letters, one of `last` bytes, and
/// two of ASCII.
fn full_plate(last: usize) -> (String, String) {
    let texts = |length| text_of("é", length);
    let prints = format!("print,{}\n", texts(64)).repeat(43);
    let spelled = format!(" 010 01 <{}>|", texts(64)).repeat(43);
    let [long, short] = [64, 7].map(|length| "x".repeat(length));
    let lines = format!("{prints}print,{}\nprint,{long}\nprint,{short}\n", texts(last));
    let others = format!(" 010 01 <{}>| 010 00 '{long}'; 010 00 '{short}';", texts(last));
    (lines, format!("0 46:10{spelled}{others}"))
}

/// Plates of 2,953 and 2,954 bytes, whose texts are nearly all of code 01.
fn full_plates() -> Vec<Case> {
    let (lines, notation) = full_plate(63);
    let plate = notation::plate(&notation);
    assert_eq!((plate.length(), plate.bytes().len()), (23_624, 2_953));
    let (over, notation) = full_plate(64);
    let longer = notation::plate(&notation).bytes();
    let mut cases = guide_and_listing(&lines, b"", Gives(plate.bytes()));
    cases.extend([
        case(Source::Plate, plate.bytes(), b"", Gives(lines.into_bytes())),
        case(Source::Guide, &over, b"", OnlyWalked),
        case(Source::Listing, &over, b"", Refused(10, 0)),
        case(Source::Plate, longer, b"", Refused(10, 0)),
    ]);
    cases
}
