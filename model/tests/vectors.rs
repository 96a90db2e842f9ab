//! The vector files: what they hold, and whether the stored ones are today's.

mod common;

use common::cursor::Cursor;
use model::limits::SCRATCH;
use model::vectors::{checksums, collect, pattern, table, Call, Set, Vector};
use std::collections::HashSet;
use std::fs;
use std::path::Path;

/// The files are those whose lengths and checksums are stored.
#[test]
fn table_is_stored() {
    let stored = fs::read_to_string(root().join("vectors.txt")).expect("model/vectors.txt");
    assert_eq!(table(), stored, "write it anew with `vectors --table`, if the change is meant");
}

/// The files in ../crates/vectors_.., where there are such programs.
#[test]
fn crates_have_these_files() {
    let Ok(crates) = fs::read_dir(root().join("../crates")) else { return };
    for entry in crates {
        let path = entry.expect("a directory entry").path();
        let name = path.file_name().expect("a name").to_string_lossy().into_owned();
        if !name.starts_with("vectors_") || !path.join("src/main.rt").exists() {
            continue;
        }
        let set = Set::ALL.into_iter().find(|set| set.crate_name() == name);
        let set = set.unwrap_or_else(|| panic!("the model writes no {name}"));
        for (file, bytes) in set.files().named() {
            let stored = fs::read(path.join(file)).unwrap_or_else(|e| panic!("{name}/{file}: {e}"));
            assert!(stored == bytes, "{name}/{file} is not what the model writes");
        }
    }
}

fn root() -> &'static Path {
    Path::new(env!("CARGO_MANIFEST_DIR"))
}

/// At least 2,000 cases a call, with acceptance and every cause.
#[test]
fn cases_and_causes() {
    for call in Call::ALL {
        let vectors = collect(call);
        assert!(vectors.len() >= 2_000, "{} has {} cases", call.name(), vectors.len());
        let mut numbers = HashSet::new();
        for vector in &vectors {
            let (values, _) = vector.call(call);
            numbers.insert(values.map_or_else(|refusal| refusal.number, |_| 0));
        }
        for number in [0].iter().chain(call.causes()) {
            assert!(numbers.contains(number), "{} has no {number}", call.name());
        }
        assert_eq!(numbers.len(), call.causes().len() + 1);
    }
}

/// Reads a case of a call.
fn read_vector(cursor: &mut Cursor, call: Call) -> Vector {
    let lent = cursor.number();
    let [input, book] = [cursor.slice(), cursor.slice()];
    let mut answers = Vec::new();
    if call.takes_answers() {
        let count = cursor.number();
        answers.extend((0..count).map(|_| cursor.signed()));
    }
    let scratch = if call == Call::Run { cursor.number() } else { 0 };
    Vector { lent, input, book, answers, scratch }
}

/// The cases read from stdin, which are all cases of each call in turn, give the lines of stdout.
#[test]
fn stdin_gives_stdout() {
    let files = Set::Call.files();
    let mut cursor = Cursor::new(&files.stdin);
    let (mut calls, mut stdout) = (Vec::new(), String::new());
    while !cursor.is_at_end() {
        let call = Call::ALL[cursor.number()];
        calls.push(call);
        stdout += &read_vector(&mut cursor, call).answer(call);
    }
    let of_call = |call| vec![call; collect(call).len()];
    assert_eq!(calls, Call::ALL.map(of_call).concat());
    assert_eq!(stdout.lines().count(), calls.len());
    assert!(stdout.as_bytes() == files.stdout);
}

/// The numbers of the calls, as README.md states them.
#[test]
fn numbers_of_calls() {
    let calls = [Call::Translate, Call::WritePlate, Call::ReadPlate, Call::Walk, Call::Run];
    assert_eq!(calls.map(Call::number), [0, 1, 2, 3, 4]);
    assert_eq!(Call::ALL, calls);
}

/// Some lines of the format, by hand.
#[test]
fn lines_of_answers() {
    let vector = |lent, input: &[u8]| Vector {
        lent,
        input: input.to_vec(),
        book: Vec::new(),
        answers: vec![90],
        scratch: SCRATCH,
    };
    let guide = vector(7, b"printex,OK\n");
    assert_eq!(guide.answer(Call::Translate), "Y,5,002C9F2C183037\n");
    assert_eq!(guide.answer(Call::Walk), "Y,5,0,0,1,0,562C4F4B0A3037\n");
    assert_eq!(vector(4, b"printex,OK\n").answer(Call::WritePlate), "N,11,0,0D141B22\n");
    assert_eq!(vector(0, b"print\n").answer(Call::WritePlate), "N,4,1,\n");
    let refused = vector(65, b"\x80").answer(Call::Run);
    let [first, second] = checksums(&pattern(65));
    assert_eq!(refused, format!("N,12,6,{first},{second}\n"));
}

/// The sizes that the vector programs rely on, as README.md states them.
#[test]
fn sizes() {
    for (set, limit) in [(Set::Call, 7_000_000), (Set::Agree, 2_500_000)] {
        let files = set.files();
        assert!(files.stdin.len() < limit);
        assert!(files.stdout.len() < 1_500_000);
    }
    for call in Call::ALL {
        for vector in collect(call) {
            assert!(vector.lent <= 327_680);
            assert!(vector.input.len() <= 327_681);
            assert!(vector.book.len() <= 20_000);
            assert!(vector.answers.len() <= 1_536);
            assert!(vector.scratch <= 600);
        }
    }
}

/// One plate is run with each of these lengths of scratch: 64 numbers are enough.
#[test]
fn scratch_lengths_are_among_them() {
    let mut answered = HashSet::new();
    for vector in collect(Call::Run) {
        let (values, _) = vector.call(Call::Run);
        answered.insert((vector.scratch, values.map_or_else(|refusal| refusal.number, |_| 0)));
    }
    for scratch in [0, 1, 63] {
        assert!(answered.contains(&(scratch, 11)) && !answered.contains(&(scratch, 0)));
    }
    for scratch in [64, 65, 511, 512, 600] {
        assert!(answered.contains(&(scratch, 0)), "{scratch}");
    }
}

#[test]
fn long_inputs_are_among_them() {
    let longest = |call| collect(call).iter().map(|vector| vector.input.len()).max();
    assert_eq!(longest(Call::Translate), Some(16_385));
    assert_eq!(longest(Call::Walk), Some(16_385));
    assert_eq!(longest(Call::WritePlate), Some(327_681));
    assert_eq!(longest(Call::ReadPlate), Some(5_000));
    assert_eq!(longest(Call::Run), Some(5_000));
}

/// Any one byte changed, and any two bytes swapped, change both checksums.
#[test]
fn checksums_show_changes() {
    let bytes = pattern(300);
    let before = checksums(&bytes);
    for place in 0..bytes.len() {
        let mut changed = bytes.clone();
        changed[place] ^= 1;
        let after = checksums(&changed);
        assert!(after[0] != before[0] && after[1] != before[1]);
        let mut swapped = bytes.clone();
        swapped.swap(place, (place + 1) % 300);
        let after = checksums(&swapped);
        assert!(after[0] != before[0] && after[1] != before[1]);
    }
    assert_ne!(checksums(&pattern(299)), before);
    assert_eq!(checksums(&[]), [0, 0]);
    assert_eq!(checksums(&[5]), [6, 6]);
    assert_eq!(checksums(&[5, 9]), [289_636, 417_868]);
}
