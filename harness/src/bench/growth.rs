//! Series in which one size doubles: the time and the factor from one to the next.

use super::inputs::{long_book, nested, prints, series, short_book};
use super::time::times;
use super::{Subject, Work};
use model::vectors::Call;

/// A name, the sizes, the calls and the works of a series.
struct Series {
    title: &'static str,
    sizes: &'static [usize],
    calls: &'static [Call],
    subject: fn(usize) -> Subject,
}

const ALL: [Series; 4] = [
    Series {
        title: "instructions, with a book of 40 phrases of 8 bytes",
        sizes: &[64, 128, 256, 512],
        calls: &Call::ALL,
        subject: |size| Subject::of_guide(series(size), short_book(), vec![0; 512]),
    },
    Series {
        title: "lines print,a, with an empty book",
        sizes: &[64, 128, 256, 512],
        calls: &Call::ALL,
        subject: |size| Subject::of_guide(prints(size), Vec::new(), Vec::new()),
    },
    Series {
        title: "levels of ifs around 512 instructions",
        sizes: &[1, 2, 4, 8, 16],
        calls: &[Call::Translate, Call::Walk],
        subject: |size| Subject::of_guide(nested(size), Vec::new(), Vec::new()),
    },
    Series {
        title: "phrases of 64 bytes in the book of an empty guide",
        sizes: &[32, 64, 128, 256],
        calls: &[Call::Translate],
        subject: |size| Subject::of_guide(Vec::new(), long_book(size), Vec::new()),
    },
];

pub fn print_series() {
    for Series { title, sizes, calls, subject } in ALL {
        println!("growth with the {title}");
        println!(
            "{:<12}{:>8}{:>8}{:>14}{:>9}{:>14}{:>9}",
            "call", "size", "bytes", "ns library", "factor", "ns model", "factor"
        );
        let works: Vec<Work> = calls
            .iter()
            .flat_map(|&call| sizes.iter().map(move |&size| subject(size).work(call)))
            .collect();
        let mut before: Option<[f64; 2]> = None;
        for ((work, times), size) in works.iter().zip(times(&works)).zip(sizes.iter().cycle()) {
            let now = [times.library, times.model];
            print_row(work, *size, now, before.filter(|_| *size != sizes[0]));
            before = Some(now);
        }
        println!();
    }
}

fn print_row(work: &Work, size: usize, now: [f64; 2], before: Option<[f64; 2]>) {
    let bytes = if work.input.len() > 2 { work.input.len() } else { work.book.len() };
    let factors = before.map(|before| [now[0] / before[0], now[1] / before[1]]);
    let shown = |side: usize| match factors {
        Some(factors) => format!("{:.2}", factors[side]),
        None => String::new(),
    };
    println!(
        "{:<12}{size:>8}{bytes:>8}{:>14.0}{:>9}{:>14.0}{:>9}",
        work.call.name(),
        now[0],
        shown(0),
        now[1],
        shown(1)
    );
}
