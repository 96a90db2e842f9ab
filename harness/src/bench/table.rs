//! The tables of times: with an output that is long enough for every result, and with one as long as the result.

use super::sizes;
use super::time::{times, Times};
use super::Work;
use model::vectors::Call;

pub fn print_times() {
    println!("{}\n", sizes::LEGEND);
    print_table(|work| Some(work));
    println!("\nwith an output as long as the result");
    print_table(|work| has_two_passes(work.call).then(|| work.exact()));
}

/// A row for each call at each size, of what `lent` makes of its work.
fn print_table(lent: fn(Work) -> Option<Work>) {
    let mut names = Vec::new();
    let mut works = Vec::new();
    for size in sizes::ALL {
        let subject = (size.subject)();
        for work in size.calls.iter().filter_map(|&call| lent(subject.work(call))) {
            names.push(size.name);
            works.push(work);
        }
    }
    print_head();
    for ((name, work), times) in names.iter().zip(&works).zip(times(&works)) {
        print_row(name, work, &times);
    }
}

/// The calls that make two passes where the output may be too short.
fn has_two_passes(call: Call) -> bool {
    matches!(call, Call::ReadPlate | Call::Walk | Call::Run)
}

fn print_head() {
    println!(
        "{:<12}{:<9}{:>8}{:>8}{:>14}{:>14}{:>9}{:>12}",
        "call", "size", "input", "book", "ns library", "ns model", "ratio", "ns a byte"
    );
}

fn print_row(name: &str, work: &Work, times: &Times) {
    println!(
        "{:<12}{:<9}{:>8}{:>8}{:>14.0}{:>14.0}{:>9.2}{:>12.2}",
        work.call.name(),
        name,
        work.input.len(),
        work.book.len(),
        times.library,
        times.model,
        times.library / times.model,
        times.library / work.input.len().max(1) as f64,
    );
}
