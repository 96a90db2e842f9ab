//! The order of causes in guides and listings.

use super::{case, guide_and_listing, text, with_own_phrases, Case, Refused, Source};

pub const GROUPS: &[super::Group] = &[
    ("order_on_a_line", order_on_a_line),
    ("order_of_lines", order_of_lines),
    ("order_at_the_last_instruction", order_at_the_last_instruction),
    ("order_with_nesting", order_with_nesting),
];

/// On one line the lowest cause.
fn order_on_a_line() -> Vec<Case> {
    let long = text(65);
    let table = [
        // 3 before 4, 5 and 6.
        ("print,z\nx\u{1}\n", 3),
        ("print,z\n\u{7f}\n", 3),
        ("print,z\nprint\u{1}\n", 3),
        ("print,z\nprint,a\u{1},b\n", 3),
        ("print,z\ninput,99,a\u{1}\n", 3),
        (&format!("print,z\nprint,{long}\u{1}\n"), 3),
        ("print,z\nphrase,a\u{1}\n", 3),
        ("print,z\nprint,", 3),
        // 4 before 5 and 6.
        ("print,z\ninput,99\n", 4),
        ("print,z\ninput,-0,,\n", 4),
        ("print,z\ninputs,99,,\n", 4),
        ("print,z\nprint,,\n", 4),
        ("print,z\nphrase\n", 4),
        ("print,z\nphrase,a,b\n", 4),
        // 5 before 6.
        ("print,z\nphrase,\n", 5),
        (&format!("print,z\nphrase,{long}\n"), 5),
        ("print,z\nphrase,a\n", 6),
    ];
    let cases = table.map(|(input, number)| guide_and_listing(input, b"", Refused(number, 2)));
    cases.concat()
}

/// The first line with a cause, whatever the later ones have.
fn order_of_lines() -> Vec<Case> {
    let table = [
        ("print,\n\u{1}\n", 5, 1),
        ("x\nprint,a", 4, 1),
        ("x\nprint,\n", 4, 1),
        ("print,\nx\n", 5, 1),
        ("print,a\nphrase,b\nprint,\n", 6, 2),
        ("print,a\ninput,32,b\nphrase,b\n\n", 5, 2),
    ];
    let cases =
        table.map(|(input, number, line)| guide_and_listing(input, b"", Refused(number, line)));
    let mut cases = cases.concat();
    for input in ["phrase,a\nphrase,a\n\u{1}\n", "phrase,a\nphrase,a\nx\n"] {
        cases.extend(with_own_phrases(input, b"", Refused(6, 2)));
    }
    cases.push(case(Source::Guide, "fi\n\u{1}\n", b"", Refused(7, 1)));
    cases.push(case(Source::Guide, "else\nx\n", b"", Refused(7, 1)));
    cases
}

/// Line 513 after 512 instructions: 3 to 7 before 9.
fn order_at_the_last_instruction() -> Vec<Case> {
    let full = "print,a\n".repeat(512);
    let mut cases = Vec::new();
    let table = [
        ("print,b", 3),
        ("print,b\u{1}\n", 3),
        ("print\n", 4),
        ("\n", 4),
        ("print,\n", 5),
        ("input,32,a\n", 5),
        ("phrase,b\n", 6),
        ("print,b\n", 9),
    ];
    for (line, number) in table {
        let input = full.clone() + line;
        cases.extend(guide_and_listing(&input, b"", Refused(number, 513)));
    }
    let guides = [
        (full.clone() + "phrase,b\nprint,b\n", 6),
        (full.clone() + "else\n", 7),
        (full.clone() + "fi\n", 7),
        (full.clone() + "if,0,xx,0\n", 5),
        (full.clone() + "if,0,eq,0\n", 9),
        ("if,0,eq,0\nelse\n".to_owned() + &full[..510 * 8] + "else\n", 7),
        ("if,0,eq,0\n".repeat(16) + &full[..496 * 8] + "if,0,eq,0\n", 7),
        ("if,0,eq,0\n".repeat(15) + &full[..497 * 8] + "if,0,eq,0\n", 9),
        ("if,0,eq,0\n".repeat(15) + &full[..497 * 8] + "else\n", 9),
    ];
    for (input, number) in guides {
        cases.push(case(Source::Guide, &input, b"", Refused(number, 513)));
    }
    for line in ["goto,512\n", "if,0,eq,0,512\n"] {
        let input = full.clone() + line;
        cases.push(case(Source::Listing, &input, b"", Refused(5, 513)));
    }
    cases
}

/// 3, 4 and 5 before 7 on one line.
fn order_with_nesting() -> Vec<Case> {
    let open = "if,0,eq,0\n".repeat(16);
    let table = [
        ("else\u{1}\n".to_owned(), 3, 1),
        ("fi".to_owned(), 3, 1),
        ("else,\n".to_owned(), 4, 1),
        ("fi,x\n".to_owned(), 4, 1),
        (open.clone() + "if,0,eq,0\u{1}\n", 3, 17),
        (open.clone() + "if,0,eq\n", 4, 17),
        (open.clone() + "if,0,eq,0,0\n", 4, 17),
        (open.clone() + "if,32,eq,0\n", 5, 17),
        (open.clone() + "if,0,eq,2147483648\n", 5, 17),
        (open + "if,0,eq,0\n", 7, 17),
    ];
    table
        .map(|(input, number, line)| case(Source::Guide, &input, b"", Refused(number, line)))
        .to_vec()
}
