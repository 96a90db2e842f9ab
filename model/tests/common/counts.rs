//! Counts of what the random inputs reached.

use model::vectors::Call;
use model::Refusal;
use std::collections::BTreeMap;

#[derive(Default)]
pub struct Counts {
    counts: BTreeMap<String, usize>,
}

impl Counts {
    pub fn add(&mut self, what: &str) {
        match self.counts.get_mut(what) {
            Some(count) => *count += 1,
            None => {
                self.counts.insert(what.to_owned(), 1);
            }
        }
    }

    pub fn add_if(&mut self, holds: bool, what: &str) {
        if holds {
            self.add(what);
        }
    }

    /// Counts a call's cause, or its acceptance as 0. A cause that the call
    /// cannot give fails.
    pub fn add_result<T>(&mut self, call: Call, result: &Result<T, Refusal>) {
        let number = match result {
            Ok(_) => 0,
            Err(refusal) => {
                let number = refusal.number;
                assert!(call.causes().contains(&number), "{} gives {number}", call.name());
                number
            }
        };
        self.add(&format!("{} {number}", call.name()));
    }

    /// Each was reached at least so many times.
    pub fn assert_reached(&self, least: usize, whats: &[&str]) {
        for what in whats {
            let count = self.counts.get(*what).copied().unwrap_or(0);
            assert!(count >= least, "{what} was reached {count} times");
        }
    }

    pub fn assert_causes_reached(&self, call: Call) {
        for number in [0].iter().chain(call.causes()) {
            self.assert_reached(1, &[&format!("{} {number}", call.name())]);
        }
    }

    pub fn print(&self) {
        for (what, count) in &self.counts {
            println!("{count:8} {what}");
        }
    }
}
