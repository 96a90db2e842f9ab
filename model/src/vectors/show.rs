//! The cases of `vectors_show`: guides, and what plateshow prints for each.

use super::stdin;
use crate::cases::records::VOLTS;
use crate::cases::{self, sizes, Source};
use crate::examples::GUIDES;
use crate::generate;
use crate::rng::Rng;
use crate::show::plateshow;

const SEED: u64 = 0x5EED_0041;
const RANDOM: usize = 500;
/// The longest random guide.
const LONGEST: usize = 300;
/// The groups of cases whose guides are left out, to keep the file small.
const LEFT_OUT: [&str; 4] =
    ["guide_bytes", "phrase_lines_at_limits", "order_at_the_last_instruction", "letters_at_limits"];

#[derive(Clone, Debug, PartialEq, Eq)]
pub struct Case {
    pub guide: Vec<u8>,
}

impl Case {
    /// Adds the case to what the program reads.
    pub fn write(&self, out: &mut Vec<u8>) {
        stdin::slice(out, &self.guide);
    }

    /// What the program writes.
    pub fn answer(&self) -> String {
        String::from_utf8(plateshow(&self.guide)).expect("characters")
    }
}

pub fn collect() -> Vec<Case> {
    let mut guides: Vec<Vec<u8>> = worked().map(|guide| guide.as_bytes().to_vec()).to_vec();
    guides.extend(GUIDES.iter().map(|example| example.guide.to_vec()));
    guides.extend(largest());
    guides.extend(limits());
    random(&mut guides);
    guides.into_iter().map(|guide| Case { guide }).collect()
}

/// The guides of cases (a), (b), (f) and (g).
fn worked() -> [&'static str; 4] {
    ["printex,OK\n", VOLTS, "if,0,eq,0\nprint,a\nelse\nfi\nprint,b\n", ""]
}

/// A guide of 11,023 bytes whose plate has 2,952, and guides of 16,384 and 16,385 bytes,
/// which with an empty book are 10 and 2.
fn largest() -> [Vec<u8>; 3] {
    let fits = "if,31,eq,-2147483648\nfi\n".repeat(259) + &"if,31,eq,-32768\nfi\n".repeat(253);
    let [last, past] = [28, 29].map(sizes::long_guide);
    [fits, last, past].map(String::into_bytes)
}

/// The guides at the limits, with an empty book: every cause but 1 and 11.
fn limits() -> Vec<Vec<u8>> {
    let groups = cases::GROUPS.iter().copied().flatten();
    let groups = groups.filter(|(name, _)| !LEFT_OUT.contains(name));
    let cases = groups.flat_map(|(_, cases)| cases());
    let guides = cases.filter(|case| case.source == Source::Guide && case.book.is_empty());
    guides.map(|case| case.input).collect()
}

fn random(guides: &mut Vec<Vec<u8>>) {
    let mut rng = Rng::new(SEED);
    let wanted = guides.len() + RANDOM;
    while guides.len() < wanted {
        let guide = generate::guide(&mut rng).input;
        if guide.len() <= LONGEST {
            guides.push(guide);
        }
    }
}
