//! Texts, bytes and numbers on the lines that guides and listings share.

use super::{case, gives_plate, guide_and_listing, text, with_own_phrases, Accepted, Case};
use super::{Expected, Refused, Source, NEAR_LIMITS};

pub const GROUPS: &[super::Group] = &[
    ("text_lengths", text_lengths),
    ("line_bytes", line_bytes),
    ("last_lf", last_lf),
    ("registers", registers),
    ("malformed_numbers", malformed_numbers),
    ("options", options),
];

/// 0, 1, 64 and 65 bytes in every place of a text.
fn text_lengths() -> Vec<Case> {
    let lines = [
        ["print,", ""],
        ["printex,", ""],
        ["input,0,", ""],
        ["inputs,0,", ",b,c"],
        ["inputs,0,a,", ",c"],
        ["inputs,0,a,b,", ""],
        ["inputs,0,a,b,c,d,e,f,g,h,", ""],
    ];
    let lengths = [(0, false), (1, true), (63, true), (64, true), (65, false)];
    let mut cases = Vec::new();
    for [before, after] in lines {
        for (length, fits) in lengths {
            let input = format!("print,p\n{before}{}{after}\n", text(length));
            let expected = if fits { Accepted } else { Refused(5, 2) };
            cases.extend(guide_and_listing(&input, b"", expected));
        }
    }
    for (length, fits) in lengths {
        let input = format!("phrase,p\nphrase,{}\n", text(length));
        let expected = if fits { Accepted } else { Refused(5, 2) };
        cases.extend(with_own_phrases(&input, b"", expected));
    }
    for length in [1, 64] {
        let text = text(length);
        let plate = gives_plate(&format!("0 1:10 010 00 '{text}';"));
        cases.extend(guide_and_listing(&format!("print,{text}\n"), b"", plate));
    }
    cases
}

/// Every byte inside a text, and those near the limits at the ends of a line.
fn line_bytes() -> Vec<Case> {
    let mut cases = Vec::new();
    for byte in (0..=255).filter(|&byte| byte != b'\n') {
        let expected = |others: Expected| match byte {
            0..=31 | 127..=255 => Refused(3, 2),
            b',' => Refused(4, 2),
            _ => others,
        };
        let mut add = |before: &[u8], after: &[u8], expected: Expected| {
            let input = [b"print,a\n", before, &[byte], after, b"\nprint,b\n"].concat();
            cases.extend([Source::Guide, Source::Listing].map(|source| Case {
                source,
                input: input.clone(),
                book: Vec::new(),
                expected: expected.clone(),
            }));
        };
        add(b"print,a", b"b", expected(Accepted));
        if NEAR_LIMITS.contains(&byte) {
            add(b"print,a", b"", expected(Accepted));
            add(b"", b"print,a", expected(Refused(4, 2)));
        }
    }
    cases
}

/// The last line without LF, whatever else it holds.
fn last_lf() -> Vec<Case> {
    let table = [
        ("", Accepted),
        ("print,a\n", Accepted),
        ("print,a", Refused(3, 1)),
        ("print,a\nprint,b", Refused(3, 2)),
        ("print,a\nprint,b\nprint,c", Refused(3, 3)),
        ("x", Refused(3, 1)),
        (" ", Refused(3, 1)),
        (",", Refused(3, 1)),
        ("print,a\nprint,", Refused(3, 2)),
        ("print,a\nphrase,b", Refused(3, 2)),
        ("print,a\nfi", Refused(3, 2)),
        ("print,a\n\u{1}", Refused(3, 2)),
        ("print,a\n\nprint,b", Refused(4, 2)),
        ("\n", Refused(4, 1)),
    ];
    let cases = table.map(|(input, expected)| guide_and_listing(input, b"", expected));
    cases.concat()
}

/// Registers 0 to 31 in every kind that has one.
fn registers() -> Vec<Case> {
    let mut cases = Vec::new();
    for register in [0, 1, 9, 10, 15, 16, 30, 31] {
        let input = format!("input,{register},a\n");
        let plate = gives_plate(&format!("0 1:10 000 {register}:5 00 'a';"));
        cases.extend(guide_and_listing(&input, b"", plate));
        let input = format!("inputs,{register},a,b,c\n");
        let plate = format!("0 1:10 001 {register}:5 00 'a'; 0:3 00 'b'; 00 'c';");
        cases.extend(guide_and_listing(&input, b"", gives_plate(&plate)));
        let plate = gives_plate(&format!("0 1:10 101 {register}:5 3:3 00 7:16 0:9"));
        let input = format!("if,{register},le,7\nfi\n");
        cases.push(case(Source::Guide, &input, b"", plate.clone()));
        let input = format!("if,{register},le,7,0\n");
        cases.push(case(Source::Listing, &input, b"", plate));
    }
    for register in ["32", "33", "63", "99", "100", "256", "-1", "-31"] {
        for kind in ["input,R,a\n", "inputs,R,a,b,c\n"] {
            let input = kind.replace('R', register);
            cases.extend(guide_and_listing(&input, b"", Refused(5, 1)));
        }
        let input = format!("if,{register},eq,0\nfi\n");
        cases.push(case(Source::Guide, &input, b"", Refused(5, 1)));
        let input = format!("if,{register},eq,0,0\n");
        cases.push(case(Source::Listing, &input, b"", Refused(5, 1)));
    }
    cases
}

/// Signs, leading zeros and other bytes, in every place of a number.
fn malformed_numbers() -> Vec<Case> {
    let numbers = [
        "", "-", "--1", "+", "+0", "+1", "-0", "00", "01", "-01", "-00", "007", " 1", "1 ", "1-",
        "1.0", "0x1", "1e1", "a", "1a", "/", ":", "1/", "1:",
    ];
    let mut cases = Vec::new();
    for number in numbers {
        for kind in ["input,N,a\n", "inputs,N,a,b,c\n"] {
            let input = kind.replace('N', number);
            cases.extend(guide_and_listing(&input, b"", Refused(5, 1)));
        }
        for kind in ["if,N,eq,0\nfi\n", "if,0,eq,N\nfi\n"] {
            let input = kind.replace('N', number);
            cases.push(case(Source::Guide, &input, b"", Refused(5, 1)));
        }
        for kind in ["if,N,eq,0,0\n", "if,0,eq,N,0\n", "if,0,eq,0,N\n", "goto,N\n"] {
            let input = kind.replace('N', number);
            cases.push(case(Source::Listing, &input, b"", Refused(5, 1)));
        }
    }
    cases
}

/// 1 to 9 options; options may repeat.
fn options() -> Vec<Case> {
    let mut cases = Vec::new();
    for count in 0..=9 {
        let input = format!("inputs,5,a{}\n", ",b".repeat(count));
        let expected = if (2..=8).contains(&count) {
            let texts = " 00 'b';".repeat(count);
            gives_plate(&format!("0 1:10 001 5:5 00 'a'; {}:3{texts}", count - 2))
        } else {
            Refused(4, 1)
        };
        cases.extend(guide_and_listing(&input, b"", expected));
    }
    let same = "inputs,0,a,a,a\n";
    let plate = gives_plate("0 1:10 001 0:5 00 'a'; 0:3 00 'a'; 00 'a';");
    cases.extend(guide_and_listing(same, b"", plate));
    cases
}
