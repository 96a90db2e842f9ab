//! What only guides have: if, else and fi. What they do not have: own phrases.

use super::{case, gives_plate, lines, text, Accepted, Case, Expected, Refused, Source};

pub const GROUPS: &[super::Group] = &[
    ("operators", operators),
    ("levels", levels),
    ("else_and_fi", else_and_fi),
    ("open_ifs", open_ifs),
    ("guide_instructions", guide_instructions),
    ("phrase_lines", phrase_lines),
    ("phrase_lines_at_limits", phrase_lines_at_limits),
    ("phrase_lines_in_blocks", phrase_lines_in_blocks),
    ("skips_of_blocks", skips_of_blocks),
];

const IF: &str = "if,0,eq,0\n";
const ELSE: &str = "else\n";
const FI: &str = "fi\n";

fn guides<const N: usize>(table: [(&str, Expected); N]) -> Vec<Case> {
    table.map(|(input, expected)| case(Source::Guide, input, b"", expected)).to_vec()
}

/// The six OPs in guides and listings, and words that are none.
fn operators() -> Vec<Case> {
    let mut cases = Vec::new();
    for (code, op) in ["eq", "ne", "lt", "le", "gt", "ge"].iter().enumerate() {
        let plate = gives_plate(&format!("0 1:10 101 31:5 {code}:3 00 -2:16 0:9"));
        let guide = format!("if,31,{op},-2\nfi\n");
        cases.push(case(Source::Guide, &guide, b"", plate.clone()));
        let listing = format!("if,31,{op},-2,0\n");
        cases.push(case(Source::Listing, &listing, b"", plate));
    }
    for op in ["", "e", "eqq", "EQ", "Eq", " eq", "eq ", "==", "<", "0", "le ", "neq", "l"] {
        let guide = format!("if,0,{op},0\nfi\n");
        cases.push(case(Source::Guide, &guide, b"", Refused(5, 1)));
        let listing = format!("if,0,{op},0,0\n");
        cases.push(case(Source::Listing, &listing, b"", Refused(5, 1)));
    }
    cases
}

/// 15, 16 and 17 levels.
fn levels() -> Vec<Case> {
    let nested = |count| IF.repeat(count) + &FI.repeat(count);
    let in_else = |count: usize| [IF, ELSE].concat().repeat(count) + &FI.repeat(count);
    let turns = |count| lines(count, |place| ["if,0,eq,0", "if,0,eq,0\nelse"][place % 2].into());
    guides([
        (&nested(15), Accepted),
        (&nested(16), Accepted),
        (&nested(17), Refused(7, 17)),
        (&in_else(16), Accepted),
        (&in_else(17), Refused(7, 33)),
        (&(turns(16) + &FI.repeat(16)), Accepted),
        (&(turns(17) + &FI.repeat(17)), Refused(7, 25)),
        // A level left is free again.
        (&(IF.repeat(15) + &nested(1).repeat(3) + &FI.repeat(15)), Accepted),
        (&(IF.repeat(15) + &nested(1) + &nested(2) + &FI.repeat(15)), Refused(7, 19)),
        (&(nested(16).repeat(2)), Accepted),
        (&(IF.repeat(16) + ELSE + "print,a\n" + &FI.repeat(16)), Accepted),
        (&(IF.repeat(16) + ELSE + IF), Refused(7, 18)),
    ])
}

/// else and fi without their if, and second elses.
fn else_and_fi() -> Vec<Case> {
    guides([
        ("else\n", Refused(7, 1)),
        ("fi\n", Refused(7, 1)),
        ("print,a\nelse\n", Refused(7, 2)),
        ("print,a\nfi\n", Refused(7, 2)),
        (&[IF, FI, ELSE].concat(), Refused(7, 3)),
        (&[IF, FI, FI].concat(), Refused(7, 3)),
        (&[IF, ELSE, ELSE, FI].concat(), Refused(7, 3)),
        (&[IF, ELSE, FI, FI].concat(), Refused(7, 4)),
        (&[IF, ELSE, FI, ELSE].concat(), Refused(7, 4)),
        (&[IF, IF, ELSE, FI, ELSE, FI].concat(), Accepted),
        (&[IF, IF, ELSE, ELSE].concat(), Refused(7, 4)),
        (&[IF, ELSE, IF, ELSE, FI, FI].concat(), Accepted),
        (&[IF, ELSE, IF, FI, ELSE].concat(), Refused(7, 5)),
        (&[IF, ELSE, IF, ELSE, ELSE].concat(), Refused(7, 5)),
        (&[IF, IF, FI, FI, FI].concat(), Refused(7, 5)),
    ])
}

/// Ifs left open: the line of the innermost, judged after the last line.
fn open_ifs() -> Vec<Case> {
    guides([
        (IF, Refused(7, 1)),
        (&[IF, ELSE].concat(), Refused(7, 1)),
        (&["print,a\n", IF, "print,b\n", ELSE, "print,c\n"].concat(), Refused(7, 2)),
        (&[IF, IF].concat(), Refused(7, 2)),
        (&[IF, IF, ELSE].concat(), Refused(7, 2)),
        (&[IF, IF, FI].concat(), Refused(7, 1)),
        (&[IF, IF, FI, ELSE].concat(), Refused(7, 1)),
        (&[IF, ELSE, IF, FI, "print,a\n"].concat(), Refused(7, 1)),
        (&[IF, FI, IF, IF, FI, IF].concat(), Refused(7, 6)),
        (&["print,a\n", "print,b\n", IF].concat(), Refused(7, 3)),
        (&IF.repeat(16), Refused(7, 16)),
        // A later line's own fault comes first.
        (&[IF, "print\n"].concat(), Refused(4, 2)),
        (&[IF, "print,a"].concat(), Refused(3, 2)),
        (&[IF, "print,a\n", "phrase,b\n"].concat(), Refused(6, 3)),
        (&(IF.to_owned() + &"print,a\n".repeat(511)), Refused(7, 1)),
        (&(IF.to_owned() + &"print,a\n".repeat(512)), Refused(9, 513)),
    ])
}

/// 511, 512 and 513 instructions, the last of every kind.
fn guide_instructions() -> Vec<Case> {
    let prints = |count| "print,a\n".repeat(count);
    let empty_ifs = [IF, ELSE, FI].concat().repeat(256);
    let mut cases = guides([
        (&prints(511), Accepted),
        (&prints(512), Accepted),
        (&prints(513), Refused(9, 513)),
        (&prints(514), Refused(9, 513)),
        (&(prints(511) + IF + FI), Accepted),
        (&(prints(512) + IF + FI), Refused(9, 513)),
        (&(prints(510) + IF + ELSE + FI), Accepted),
        (&(prints(511) + IF + ELSE + FI), Refused(9, 513)),
        (&(IF.to_owned() + &prints(511) + FI), Accepted),
        (&(IF.to_owned() + &prints(511) + ELSE + FI), Refused(9, 513)),
        (&(IF.to_owned() + &prints(510) + ELSE + FI), Accepted),
        (&empty_ifs, Accepted),
        (&(empty_ifs.clone() + "print,a\n"), Refused(9, 769)),
    ]);
    for line in ["printex,a\n", "input,0,a\n", "inputs,0,a,b,c\n"] {
        cases.extend(guides([
            (&(prints(511) + line), Accepted),
            (&(prints(512) + line), Refused(9, 513)),
        ]));
    }
    cases
}

/// A phrase line is 6, at the first of them; on it 3, 4 and 5 come before, and so
/// does an earlier line's fault.
fn phrase_lines() -> Vec<Case> {
    let mut cases = guides([
        ("phrase,a\n", Refused(6, 1)),
        ("phrase,a\nprint,a\n", Refused(6, 1)),
        ("phrase,a\nphrase,b\nprint,a\n", Refused(6, 1)),
        ("phrase,a\nphrase,\nphrase\n", Refused(6, 1)),
        ("print,a\nphrase,a\n", Refused(6, 2)),
        ("print,a\nphrase,b\nphrase,b\n", Refused(6, 2)),
        ("print,a\nprint,b\nphrase,c\nprint,d\n", Refused(6, 3)),
        (&lines(33, |place| format!("phrase,{}", super::word(place))), Refused(6, 1)),
        (&format!("phrase,{}\n", text(64)), Refused(6, 1)),
        (&format!("phrase,{}\n", text(65)), Refused(5, 1)),
        ("phrase,\n", Refused(5, 1)),
        ("phrase\n", Refused(4, 1)),
        ("phrase,a,b\n", Refused(4, 1)),
        ("phrase,,\n", Refused(4, 1)),
        ("phrase,a\u{1}\n", Refused(3, 1)),
        ("phrase\u{7f}\n", Refused(3, 1)),
        ("phrase,\u{1}\n", Refused(3, 1)),
        ("phrase,a", Refused(3, 1)),
        ("print,\nphrase,a\n", Refused(5, 1)),
        ("x\nphrase,a\n", Refused(4, 1)),
    ]);
    // A text that the book has is 6 too; a bad book comes first.
    let books = [
        ("phrase,a\n", "a\n", Refused(6, 1)),
        ("print,a\nphrase,b\n", "a\nb\n", Refused(6, 2)),
        ("phrase,a\n", "b\nb\n", Refused(1, 2)),
    ];
    cases.extend(
        books.map(|(input, book, expected)| case(Source::Guide, input, book.as_bytes(), expected)),
    );
    cases
}

/// A phrase line is no instruction, so 9 is not judged on it; 2 comes before.
fn phrase_lines_at_limits() -> Vec<Case> {
    let prints = |count| "print,a\n".repeat(count);
    let long = |count| "phrase,a\n".to_owned() + &prints(count);
    guides([
        (&long(512), Refused(6, 1)),
        (&long(513), Refused(6, 1)),
        (&(prints(511) + "phrase,a\n"), Refused(6, 512)),
        (&(prints(512) + "phrase,a\n"), Refused(6, 513)),
        (&(prints(513) + "phrase,a\n"), Refused(9, 513)),
        (&(IF.to_owned() + &prints(511) + "phrase,a\n"), Refused(6, 513)),
        // 16,377 and 16,385 bytes.
        (&long(2_046), Refused(6, 1)),
        (&long(2_047), Refused(2, 0)),
    ])
}

/// Phrase lines about ifs: 6 at the line, before the 7 of an open if.
fn phrase_lines_in_blocks() -> Vec<Case> {
    let phrase = "phrase,a\n";
    guides([
        (&[IF, phrase, FI].concat(), Refused(6, 2)),
        (&[IF, ELSE, phrase, FI].concat(), Refused(6, 3)),
        (&[IF, FI, phrase].concat(), Refused(6, 3)),
        (&[IF, ELSE, FI, phrase].concat(), Refused(6, 4)),
        (&[IF, phrase].concat(), Refused(6, 2)),
        (&[IF, "print,a\n", IF, ELSE, phrase].concat(), Refused(6, 5)),
        (&[IF, "phrase,\n"].concat(), Refused(5, 2)),
        (&(IF.repeat(16) + phrase), Refused(6, 17)),
        (&(IF.repeat(17) + phrase), Refused(7, 17)),
        (&[phrase, IF].concat(), Refused(6, 1)),
        (&[phrase, FI].concat(), Refused(6, 1)),
        (&[phrase, ELSE].concat(), Refused(6, 1)),
        (&[FI, phrase].concat(), Refused(7, 1)),
        (&[ELSE, phrase].concat(), Refused(7, 1)),
    ])
}

/// The skips that translation makes, as plates.
fn skips_of_blocks() -> Vec<Case> {
    // An if of register 0 with this skip, a print of the letter and a goto.
    let branch = |skip| format!(" 101 0:5 0:3 00 0:16 {skip}:9");
    let print = |letter| format!(" 010 00 '{letter}';");
    let goto = |skip| format!(" 100 {skip}:9");
    let [a, b, c] = ["print,a\n", "print,b\n", "print,c\n"];
    let plate = |count, parts: &[String]| gives_plate(&format!("0 {count}:10{}", parts.concat()));
    guides([
        ("", plate(0, &[])),
        (&[IF, FI].concat(), plate(1, &[branch(0)])),
        (&[IF, ELSE, FI].concat(), plate(2, &[branch(1), goto(0)])),
        (&[IF, a, FI].concat(), plate(2, &[branch(1), print('a')])),
        (&[IF, a, FI, b].concat(), plate(3, &[branch(1), print('a'), print('b')])),
        (&[IF, ELSE, a, b, FI].concat(), plate(4, &[branch(1), goto(2), print('a'), print('b')])),
        (
            &[IF, a, b, ELSE, c, FI, a].concat(),
            plate(6, &[branch(3), print('a'), print('b'), goto(1), print('c'), print('a')]),
        ),
        (
            &[IF, IF, a, ELSE, FI, ELSE, IF, FI, FI].concat(),
            plate(6, &[branch(4), branch(2), print('a'), goto(0), goto(1), branch(0)]),
        ),
        (
            // The last instruction of a true block is itself an if, and no way reaches `c`.
            &[IF, a, IF, b, FI, FI, "printex,d\n", c].concat(),
            plate(
                6,
                &[branch(3), print('a'), branch(1), print('b'), " 011 00 'd';".into(), print('c')],
            ),
        ),
    ])
}
