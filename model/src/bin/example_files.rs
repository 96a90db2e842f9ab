//! Writes or checks what stands beside the guides of the folder `examples`.
//!
//! - `example_files DIR` writes DIR/NAME.show and DIR/NAME.run for each guide;
//! - `example_files --check DIR` compares those files with the model's.
//!
//! NAME.show is what plateshow prints, with an empty book. NAME.run has the runs
//! of the guide's plate, one for each list of answers, with the book NAME.book, or
//! `relay.book` where there is none.

use model::examples::{Example, GUIDES};
use model::show::plateshow;
use model::Record;
use std::path::Path;
use std::process::ExitCode;
use std::{env, fs};

const USAGE: &str = "usage: example_files [--check] DIR";

/// The lists of answers of each guide.
const ANSWERS: [(&str, &[&[i32]]); 8] = [
    (
        "breaker-open",
        &[
            &[0],
            &[1, 0],
            &[1, 1, 0, 1, 1],
            &[1, 1, 0, 0, 90],
            &[1, 1, 4],
            &[1, 1, 4, -1, 0, 0, 90],
            &[1, 1, 4, -1, 5, 0],
        ],
    ),
    (
        "ct-open",
        &[
            &[1],
            &[0, 5, 300, 310],
            &[0, 3, 2, 1, 1],
            &[0, 300, 305, 298, 60],
            &[0, 300, 305, 298, 10],
        ],
    ),
    ("error-codes", &[&[0, 10], &[0, 120], &[0, 50], &[1], &[3]]),
    ("incident", &[&[110, 1, 200], &[110, 0], &[110, 1, 5000], &[90, 0], &[110]]),
    ("reclose-lockout", &[&[0, 0], &[1, 1, 1, 0, 0], &[4, 1, 3], &[2, 1, 3, 1], &[0, 1, 3, 1]]),
    ("sf6-low", &[&[600, 20], &[520, 20, 1], &[520, -30, 0], &[450, 10, 0], &[450, 10]]),
    (
        "town-names",
        &[
            &[33, 0, 1],
            &[33, 0, 0],
            &[11, 1, 3],
            &[11, 1, 20],
            &[33, 2],
            &[33, 3, 2],
            &[33, 3, 3, 3],
        ],
    ),
    ("trip-coil", &[&[90, 120], &[145], &[110, 0], &[110, 1, 2000], &[110, 1, 200, 1]]),
];

fn main() -> ExitCode {
    let arguments: Vec<String> = env::args().skip(1).collect();
    let arguments: Vec<&str> = arguments.iter().map(String::as_str).collect();
    let result = match arguments[..] {
        ["--check", directory] => check(Path::new(directory)),
        [directory] if !directory.starts_with('-') => write(Path::new(directory)),
        _ => Err(USAGE.to_owned()),
    };
    match result {
        Ok(()) => ExitCode::SUCCESS,
        Err(message) => {
            eprintln!("{message}");
            ExitCode::FAILURE
        }
    }
}

/// All files, by their names.
fn files() -> Vec<(String, Vec<u8>)> {
    let mut files = Vec::new();
    for (example, (answered, lists)) in GUIDES.into_iter().zip(ANSWERS) {
        assert_eq!(example.name, answered, "the tables have one order");
        files.push((format!("{answered}.show"), plateshow(example.guide)));
        files.push((format!("{answered}.run"), runs(&example, lists).into_bytes()));
    }
    files
}

/// The runs of a guide's plate: the answers, the transcript, and how it ended.
fn runs(example: &Example, lists: &[&[i32]]) -> String {
    let Example { guide, book, .. } = *example;
    let plate = model::translate(guide, book).expect("an accepted guide");
    let mut text = String::new();
    for answers in lists {
        let record = model::run(&plate, book, answers).expect("an accepted plate");
        assert_eq!(model::walk(guide, book, answers).as_ref(), Ok(&record));
        let list: String = answers.iter().map(|answer| format!(",{answer}")).collect();
        text += &format!("answers{list}\n");
        text += &String::from_utf8_lossy(&record.transcript);
        let Record { outcome, taken, steps, wrong, .. } = record;
        let outcome = outcome as u32;
        text += &format!("outcome,{outcome},taken,{taken},steps,{steps},wrong,{wrong}\n");
    }
    text
}

fn write(directory: &Path) -> Result<(), String> {
    for (name, bytes) in files() {
        let path = directory.join(name);
        fs::write(&path, bytes).map_err(|e| format!("{}: {e}", path.display()))?;
    }
    Ok(())
}

fn check(directory: &Path) -> Result<(), String> {
    for (name, bytes) in files() {
        let path = directory.join(name);
        let stored = fs::read(&path).map_err(|e| format!("{}: {e}", path.display()))?;
        if stored != bytes {
            return Err(format!("{} is not what the model writes", path.display()));
        }
    }
    Ok(())
}
