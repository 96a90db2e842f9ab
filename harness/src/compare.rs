//! The differences between what a call has to leave and what it left.

use crate::perform::{Seen, MARGIN};
use std::fmt::Display;

/// One field or one part of the memory that differs.
#[derive(Clone, Debug, PartialEq, Eq)]
pub struct Difference {
    pub what: String,
    pub expected: String,
    pub found: String,
}

/// All differences: each field of the answer, then the whole buffer, then the whole scratch, with their margins.
pub fn differences(expected: &Seen, found: &Seen) -> Vec<Difference> {
    let (e, f) = (&expected.answer, &found.answer);
    let fields = [
        ("number", u64::from(e.number), u64::from(f.number)),
        ("place", e.place, f.place),
        ("length", e.length, f.length),
        ("outcome", u64::from(e.outcome), u64::from(f.outcome)),
        ("taken", e.taken, f.taken),
        ("steps", e.steps, f.steps),
        ("wrong", u64::from(e.wrong), u64::from(f.wrong)),
    ];
    let mut differences = Vec::new();
    for (what, expected, found) in fields {
        add(&mut differences, what.to_owned(), expected, found);
    }
    add_memory(&mut differences, "buffer", &expected.buffer, &found.buffer);
    add_memory(&mut differences, "scratch", &expected.scratch, &found.scratch);
    differences
}

fn add<T: Display + PartialEq>(list: &mut Vec<Difference>, what: String, expected: T, found: T) {
    if expected != found {
        let [expected, found] = [expected.to_string(), found.to_string()];
        list.push(Difference { what, expected, found });
    }
}

/// The first place that differs, counted from the first that was lent, and how many do.
fn add_memory<T: Copy + Display + PartialEq>(
    list: &mut Vec<Difference>,
    name: &str,
    expected: &[T],
    found: &[T],
) {
    add(list, format!("{name}, its length"), expected.len(), found.len());
    if expected == found {
        return;
    }
    let pairs = || expected.iter().zip(found);
    let count = pairs().filter(|(expected, found)| expected != found).count();
    if let Some(at) = pairs().position(|(expected, found)| expected != found) {
        let place = at as i64 - MARGIN as i64;
        let what = format!("{name} at {place}, the first of {count}");
        add(list, what, expected[at], found[at]);
    }
}
