//! Many cases from a seed, each compared with the model.

use crate::calls::{Answer, Calls};
use crate::compare::{differences, Difference};
use crate::generate;
use crate::perform::{perform, Case};
use crate::reference::Model;
use crate::report::Report;
use model::limits::{MAX_PLATE, SCRATCH};
use model::show::upper_hex;
use model::vectors::Call;
use std::thread;

/// What one case has shown.
pub struct Tried {
    /// What the model answers.
    pub answer: Answer,
    pub differences: Vec<Difference>,
    /// Where the walk was compared with the run of the translator's plate: the differences.
    pub agreement: Option<Vec<Difference>>,
}

/// Makes the call of a case, and compares all with the model. A walk is also compared with the run of the translator's plate.
pub fn try_case(calls: &dyn Calls, case: &Case) -> Tried {
    let expected = perform(&Model, case);
    let found = perform(calls, case);
    let agreement = if case.call == Call::Walk { disagreement(calls, case) } else { None };
    Tried { answer: expected.answer, differences: differences(&expected, &found), agreement }
}

/// Demand 3 on the calls alone: None where the guide is not translated.
fn disagreement(calls: &dyn Calls, case: &Case) -> Option<Vec<Difference>> {
    let mut plate = vec![0; MAX_PLATE];
    let written = calls.translate(&case.input, &case.book, &mut plate);
    if !written.is_accepted() {
        return None;
    }
    plate.truncate(written.length as usize);
    let walk = Case { scratch: SCRATCH, ..case.clone() };
    let run = Case { call: Call::Run, input: plate, ..walk.clone() };
    Some(differences(&perform(calls, &walk), &perform(calls, &run)))
}

/// Tries the cases `first`, `first` + `step` .. below `count`.
fn some(calls: &dyn Calls, seed: u64, count: u64, first: u64, step: usize) -> Report {
    let mut report = Report::default();
    for number in (first..count).step_by(step) {
        let case = generate::case(seed, number);
        let tried = try_case(calls, &case);
        report.add(case.call, &tried.answer);
        report.agreements += u64::from(tried.agreement.is_some());
        if differs(&tried) {
            report.add_differing(number, describe(seed, number, &case, &tried));
        }
    }
    report
}

/// Tries `count` cases of a seed in so many threads.
pub fn all(calls: &dyn Calls, seed: u64, count: u64, threads: usize) -> Report {
    let mut report = Report::default();
    thread::scope(|scope| {
        let parts: Vec<_> = (0..threads)
            .map(|part| scope.spawn(move || some(calls, seed, count, part as u64, threads)))
            .collect();
        for part in parts {
            report.join(part.join().expect("a part of the run"));
        }
    });
    report
}

pub fn differs(tried: &Tried) -> bool {
    let disagree = tried.agreement.as_ref().is_some_and(|list| !list.is_empty());
    disagree || !tried.differences.is_empty()
}

/// A case with all that repeats it, and its differences.
pub fn describe(seed: u64, number: u64, case: &Case, tried: &Tried) -> String {
    let answers: Vec<String> = case.answers.iter().map(i32::to_string).collect();
    let mut text = format!(
        "case {number} of seed {seed} (fuzz --case {seed} {number})\ncall: {}\ninput: {}\nbook: {}\n\
         answers: {}\nlent output: {}\nlent scratch: {}\nthe model answers: {:?}\n",
        case.call.name(),
        upper_hex(&case.input),
        upper_hex(&case.book),
        answers.join(","),
        case.room,
        case.scratch,
        tried.answer,
    );
    for difference in &tried.differences {
        text += &line("the model", "the library", difference);
    }
    for difference in tried.agreement.iter().flatten() {
        text += &line("the walk", "the run of the translator's plate", difference);
    }
    text
}

fn line(one: &str, other: &str, difference: &Difference) -> String {
    let Difference { what, expected, found } = difference;
    format!("{what}: {one} {expected}, {other} {found}\n")
}
