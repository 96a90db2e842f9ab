//! The guides of the vector program for plateshow, and the files beside the
//! guides of the folder `examples`.

mod common;

use common::cursor::Cursor;
use model::examples::GUIDES;
use model::vectors::show::{collect, Case};
use model::vectors::Set;
use std::collections::HashSet;
use std::path::Path;
use std::process::Command;

/// The guides read from stdin give stdout, and the sizes that README.md states.
#[test]
fn stdin_gives_stdout() {
    let files = Set::Show.files();
    let mut cursor = Cursor::new(&files.stdin);
    let (mut stdout, mut count) = (String::new(), 0);
    while !cursor.is_at_end() {
        stdout += &Case { guide: cursor.slice() }.answer();
        count += 1;
    }
    assert!(count >= 1_200 && count == collect().len());
    assert!(stdout.as_bytes() == files.stdout);
    assert!(files.stdin.len() < 300_000 && files.stdout.len() < 400_000);
}

/// The number of a refused guide, or 0.
fn number(answer: &str) -> u32 {
    let refused = answer.strip_prefix("refused,");
    refused.map_or(0, |rest| rest.split(',').next().expect("a field").parse().expect("a number"))
}

/// Accepted guides, every cause that translate gives with an empty book, guides of
/// 16,384 bytes and one more, and those of the folder `examples`, accepted.
#[test]
fn guides_and_causes() {
    let cases = collect();
    let numbers: HashSet<u32> = cases.iter().map(|case| number(&case.answer())).collect();
    assert_eq!(numbers, HashSet::from([0, 2, 3, 4, 5, 6, 7, 9, 10]));
    let accepted =
        |guide: &[u8]| cases.iter().any(|case| case.guide == guide && number(&case.answer()) == 0);
    assert!(GUIDES.iter().all(|example| accepted(example.guide)));
    let longest = cases.iter().filter(|case| accepted(&case.guide)).map(|case| case.guide.len());
    assert_eq!(longest.max(), Some(11_023));
    let shown = |length, answer| {
        cases.iter().any(|case| case.guide.len() == length && case.answer() == answer)
    };
    assert!(shown(16_384, "refused,10,0\n") && shown(16_385, "refused,2,0\n"));
}

/// The stored files of the folder `examples` are today's.
#[test]
fn example_files_are_stored() {
    let directory = Path::new(env!("CARGO_MANIFEST_DIR")).join("../examples");
    let mut program = Command::new(env!("CARGO_BIN_EXE_example_files"));
    let output = program.arg("--check").arg(directory).output().expect("what it writes");
    assert!(output.status.success(), "{}", String::from_utf8_lossy(&output.stderr));
}
