//! Compares the library with the model on cases from a seed.
//!
//! - `fuzz [--threads T] N [SEED]` tries N cases and prints what they met;
//! - `fuzz --case SEED NUMBER` tries one of them and prints it.

use harness::fuzz::{all, describe, differs, try_case};
use harness::generate;
use harness::library::Library;
use std::env;
use std::process::ExitCode;
use std::time::Instant;

const USAGE: &str = "usage: fuzz [--threads T] N [SEED] | fuzz --case SEED NUMBER";

/// The seed where none is given.
const SEED: u64 = 1;

fn main() -> ExitCode {
    let arguments: Vec<String> = env::args().skip(1).collect();
    let arguments: Vec<&str> = arguments.iter().map(String::as_str).collect();
    let same = match arguments[..] {
        ["--case", seed, number] => numbers([seed, number]).map(|[seed, number]| one(seed, number)),
        ["--threads", threads, count] => {
            numbers([threads, count]).map(|[threads, count]| many(count, SEED, threads as usize))
        }
        ["--threads", threads, count, seed] => numbers([threads, count, seed])
            .map(|[threads, count, seed]| many(count, seed, threads as usize)),
        [count] => numbers([count]).map(|[count]| many(count, SEED, 1)),
        [count, seed] => numbers([count, seed]).map(|[count, seed]| many(count, seed, 1)),
        _ => None,
    };
    match same {
        Some(true) => ExitCode::SUCCESS,
        Some(false) => ExitCode::FAILURE,
        None => {
            eprintln!("{USAGE}");
            ExitCode::from(2)
        }
    }
}

fn numbers<const N: usize>(words: [&str; N]) -> Option<[u64; N]> {
    let mut numbers = [0; N];
    for (number, word) in numbers.iter_mut().zip(words) {
        *number = word.parse().ok()?;
    }
    Some(numbers)
}

/// Whether the library and the model agree on one case.
fn one(seed: u64, number: u64) -> bool {
    let case = generate::case(seed, number);
    let tried = try_case(&Library, &case);
    print!("{}", describe(seed, number, &case, &tried));
    !differs(&tried)
}

/// Whether the library and the model agree on all cases.
fn many(count: u64, seed: u64, threads: usize) -> bool {
    let start = Instant::now();
    let report = all(&Library, seed, count, threads.max(1));
    let seconds = start.elapsed().as_secs_f64();
    println!("{count} cases of seed {seed} in {seconds:.1} s");
    println!("{report}");
    if let Some((_, text)) = &report.first {
        print!("the first one: {text}");
    }
    report.differing == 0
}
