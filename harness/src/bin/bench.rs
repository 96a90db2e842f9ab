//! Measures the library beside the model.
//!
//! - `bench` prints times, growth and stack;
//! - `bench --time`, `bench --growth` and `bench --stack` print one of them;
//! - `bench --count` prints instructions, counted by callgrind, which runs `bench --once SIDE SIZE CALL`.

use harness::bench::{count, growth, stack, table};
use std::env;
use std::process::ExitCode;

const USAGE: &str = "usage: bench [--time | --growth | --stack | --count | --once SIDE SIZE CALL]";

fn main() -> ExitCode {
    let arguments: Vec<String> = env::args().skip(1).collect();
    let arguments: Vec<&str> = arguments.iter().map(String::as_str).collect();
    match arguments[..] {
        [] => {
            table::print_times();
            println!();
            growth::print_series();
            stack::print_stack();
        }
        ["--time"] => table::print_times(),
        ["--growth"] => growth::print_series(),
        ["--stack"] => stack::print_stack(),
        ["--count"] => count::print_counts(),
        ["--once", side, size, call] if count::once(side, size, call) => {}
        _ => {
            eprintln!("{USAGE}");
            return ExitCode::from(2);
        }
    }
    ExitCode::SUCCESS
}
