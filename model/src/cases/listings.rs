//! What only listings have: goto, and an if with a skip.

use super::{case, gives_plate, lines, Accepted, Case, Expected, Refused, Source};

pub const GROUPS: &[super::Group] = &[
    ("skip_values", skip_values),
    ("skips_to_the_end", skips_to_the_end),
    ("listing_instructions", listing_instructions),
];

fn listings<const N: usize>(table: [(&str, Expected); N]) -> Vec<Case> {
    table.map(|(input, expected)| case(Source::Listing, input, b"", expected)).to_vec()
}

/// SKIP 0 to 511; 512 is a field's fault, not a skip past the end.
fn skip_values() -> Vec<Case> {
    let after = |line: &str| format!("{line}\n{}", "print,a\n".repeat(511));
    let mut cases = Vec::new();
    for skip in ["0", "1", "9", "10", "255", "256", "510", "511"] {
        cases.extend(listings([
            (&after(&format!("goto,{skip}")), Accepted),
            (&after(&format!("if,0,eq,0,{skip}")), Accepted),
        ]));
    }
    for skip in ["512", "513", "1000", "-1", "-511", "65536", "4294967296"] {
        cases.extend(listings([
            (&after(&format!("goto,{skip}")), Refused(5, 1)),
            (&after(&format!("if,0,eq,0,{skip}")), Refused(5, 1)),
            (&format!("print,a\ngoto,{skip}\n"), Refused(5, 2)),
        ]));
    }
    let bits = " 010 00 'a';".repeat(3);
    cases.extend(listings([
        ("goto,3\nprint,a\nprint,a\nprint,a\n", gives_plate(&format!("0 4:10 100 3:9{bits}"))),
        (
            "if,1,ge,-1,3\nprint,a\nprint,a\nprint,a\n",
            gives_plate(&format!("0 4:10 101 1:5 5:3 00 -1:16 3:9{bits}")),
        ),
    ]));
    cases
}

/// A skip to n and one past it: 8 at the first such line, after all lines.
fn skips_to_the_end() -> Vec<Case> {
    let full = |line: &str| format!("print,a\n{line}\n{}", "print,a\n".repeat(510));
    listings([
        ("goto,0\n", Accepted),
        ("goto,1\n", Refused(8, 1)),
        ("goto,511\n", Refused(8, 1)),
        ("if,0,eq,0,0\n", Accepted),
        ("if,0,eq,0,1\n", Refused(8, 1)),
        ("print,a\ngoto,0\n", Accepted),
        ("print,a\ngoto,1\n", Refused(8, 2)),
        ("goto,1\nprint,a\n", Accepted),
        ("goto,2\nprint,a\n", Refused(8, 1)),
        ("goto,1\ngoto,0\ngoto,1\n", Refused(8, 3)),
        ("goto,2\ngoto,1\ngoto,0\n", Accepted),
        ("goto,2\ngoto,2\ngoto,1\n", Refused(8, 2)),
        ("print,a\nif,0,eq,0,1\nif,0,eq,0,1\n", Refused(8, 3)),
        // Phrase lines count as lines, not as instructions.
        ("phrase,p\ngoto,0\n", Accepted),
        ("phrase,p\ngoto,1\n", Refused(8, 2)),
        ("phrase,p\nphrase,q\ngoto,2\nprint,a\n", Refused(8, 3)),
        // The last of 512.
        (&full("goto,510"), Accepted),
        (&full("goto,511"), Refused(8, 2)),
        (&full("if,0,eq,0,510"), Accepted),
        (&full("if,0,eq,0,511"), Refused(8, 2)),
        // Every line comes before 8.
        ("goto,1\nx\n", Refused(4, 2)),
        ("goto,9\nprint,a", Refused(3, 2)),
        ("goto,9\nprint,\n", Refused(5, 2)),
        (&(full("goto,511") + "print,a\n"), Refused(9, 513)),
    ])
}

/// 511, 512 and 513 instructions, the last of every kind.
fn listing_instructions() -> Vec<Case> {
    let prints = |count| "print,a\n".repeat(count);
    let phrases = lines(32, |place| format!("phrase,{}", super::word(place)));
    let mut cases = listings([
        (&prints(511), Accepted),
        (&prints(512), Accepted),
        (&prints(513), Refused(9, 513)),
        (&prints(600), Refused(9, 513)),
        (&"goto,0\n".repeat(512), Accepted),
        (&"goto,0\n".repeat(513), Refused(9, 513)),
        (&(phrases.clone() + &prints(512)), Accepted),
        (&(phrases + &prints(513)), Refused(9, 545)),
    ]);
    let kinds = ["printex,a\n", "input,0,a\n", "inputs,0,a,b,c\n", "goto,0\n", "if,0,eq,0,0\n"];
    for line in kinds {
        cases.extend(listings([
            (&(prints(511) + line), Accepted),
            (&(prints(512) + line), Refused(9, 513)),
        ]));
    }
    cases
}
