//! What a run of many cases has met.

use crate::calls::Answer;
use model::machine::Outcome;
use model::vectors::Call;
use std::fmt::{self, Display, Formatter};

/// The numbers of a call's answer: 0, and the causes 1 to 15.
const NUMBERS: usize = 16;

#[derive(Clone, Debug, Default)]
pub struct Report {
    /// Cases by number and call.
    counts: [[u64; 5]; NUMBERS],
    /// Accepted walks and runs by outcome.
    outcomes: [u64; 4],
    /// Those that wait, by the wrong answers to their question.
    waits: [u64; 3],
    /// Walks that were compared with the run of the translator's plate.
    pub agreements: u64,
    /// Cases with a difference.
    pub differing: u64,
    /// The first case with a difference, and what it said.
    pub first: Option<(u64, String)>,
}

fn column(call: Call) -> usize {
    Call::ALL.iter().position(|&other| other == call).expect("one of the five")
}

impl Report {
    /// Counts the answer that a call has to give.
    pub fn add(&mut self, call: Call, answer: &Answer) {
        if let Some(row) = self.counts.get_mut(answer.number as usize) {
            row[column(call)] += 1;
        }
        if call.takes_answers() && answer.is_accepted() {
            if let Some(count) = self.outcomes.get_mut(answer.outcome as usize) {
                *count += 1;
            }
            if answer.outcome == Outcome::Waiting as u32 {
                if let Some(count) = self.waits.get_mut(answer.wrong as usize) {
                    *count += 1;
                }
            }
        }
    }

    /// Counts a case with differences.
    pub fn add_differing(&mut self, number: u64, text: String) {
        self.differing += 1;
        if self.first.as_ref().is_none_or(|(first, _)| number < *first) {
            self.first = Some((number, text));
        }
    }

    /// Adds what another part of the run has met.
    pub fn join(&mut self, other: Report) {
        for (row, more) in self.counts.iter_mut().zip(other.counts) {
            row.iter_mut().zip(more).for_each(|(count, more)| *count += more);
        }
        self.outcomes.iter_mut().zip(other.outcomes).for_each(|(count, more)| *count += more);
        self.waits.iter_mut().zip(other.waits).for_each(|(count, more)| *count += more);
        self.agreements += other.agreements;
        let differing = self.differing + other.differing;
        if let Some((number, text)) = other.first {
            self.add_differing(number, text);
        }
        self.differing = differing;
    }

    /// How often a call gave a number.
    pub fn count(&self, call: Call, number: u32) -> u64 {
        self.counts[number as usize][column(call)]
    }

    /// How many walks and runs waited after so many wrong answers to their question.
    pub fn waits(&self, wrong: usize) -> u64 {
        self.waits[wrong]
    }

    pub fn cases(&self, call: Call) -> u64 {
        self.counts.iter().map(|row| row[column(call)]).sum()
    }
}

impl Display for Report {
    fn fmt(&self, out: &mut Formatter) -> fmt::Result {
        write!(out, "{:<10}", "")?;
        for call in Call::ALL {
            write!(out, "{:>13}", call.name())?;
        }
        write!(out, "\n{:<10}", "cases")?;
        for call in Call::ALL {
            write!(out, "{:>13}", self.cases(call))?;
        }
        for (number, row) in self.counts.iter().enumerate() {
            let name = if number == 0 { "accepted".to_owned() } else { format!("cause {number}") };
            write!(out, "\n{name:<10}")?;
            for (call, count) in Call::ALL.into_iter().zip(row) {
                let given = number == 0 || call.causes().contains(&(number as u32));
                let shown = if given || *count > 0 { count.to_string() } else { "-".to_owned() };
                write!(out, "{shown:>13}")?;
            }
        }
        let [verdict, end, waiting, outside] = self.outcomes;
        write!(out, "\noutcomes of walk and run: 0 {verdict}, 1 {end}, 2 {waiting}, 3 {outside}")?;
        let [none, once, twice] = self.waits;
        write!(out, "\nwrong answers where they wait: 0 {none}, 1 {once}, 2 {twice}")?;
        write!(
            out,
            "\nruns of the translator's plate compared with the walk: {}",
            self.agreements
        )?;
        write!(out, "\ncases with differences: {}", self.differing)
    }
}
