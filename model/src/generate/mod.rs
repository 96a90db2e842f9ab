//! Pseudo random inputs, accepted ones and damaged ones.

pub mod damage;
pub mod guides;
pub mod letters;
pub mod listings;
pub mod plates;
pub mod words;

use crate::limits::{MAX_GUIDE, MAX_LISTING};
use crate::rng::Rng;
use words::{constant, Words};

/// A guide, listing or plate with its book.
pub struct Sample {
    pub input: Vec<u8>,
    pub book: Vec<u8>,
}

/// Answers outside the options of every question.
const OUTSIDE: [i32; 6] = [-1, 8, 9, 255, i32::MIN, i32::MAX];

/// Answers: mostly places of options, often few, at times enough for all. In some
/// lists many are outside the options, alone or two and three in a row.
pub fn answers(rng: &mut Rng) -> Vec<i32> {
    let count = match rng.below(20) {
        0..=2 => 0,
        3..=10 => rng.between(1, 8),
        11..=17 => rng.between(9, 40),
        18 => rng.between(41, 100),
        _ => *rng.pick(&[512, 512, 512, 512, 512, 512, 512, 1_536]),
    };
    let highest_small = rng.between(1, 9);
    let outside_share = *rng.pick(&[0, 1, 1, 4, 8]);
    let mut answers = Vec::new();
    while answers.len() < count {
        if rng.below(16) < outside_share {
            let outside = *rng.pick(&OUTSIDE);
            answers.extend(vec![outside; rng.between(1, 3)]);
        }
        answers.push(match rng.below(16) {
            0 => constant(rng),
            1 => rng.next_u64() as i32,
            _ => rng.below(highest_small) as i32,
        });
    }
    answers.truncate(count);
    answers
}

/// A guide, damaged or with a damaged book once in a few times.
pub fn guide(rng: &mut Rng) -> Sample {
    let words = Words::new(rng);
    let mut input = guides::guide(rng, &words);
    let mut book = words.book_bytes();
    damage_some(rng, &mut input, &mut book, MAX_GUIDE);
    Sample { input, book }
}

/// A listing, damaged or with a damaged book once in a few times.
pub fn listing(rng: &mut Rng) -> Sample {
    let words = Words::new(rng);
    let mut input = listings::listing(rng, &words);
    let mut book = words.book_bytes();
    damage_some(rng, &mut input, &mut book, MAX_LISTING);
    Sample { input, book }
}

/// A plate, damaged or with a damaged or changed book once in a few times.
pub fn plate(rng: &mut Rng) -> Sample {
    let words = Words::new(rng);
    let mut book = words.book_bytes();
    let mut input = plates::plate(rng, &words, &book);
    if rng.once_in(3) {
        damage::plate(rng, &mut input);
    }
    match rng.below(60) {
        0 => damage::text(rng, &mut book),
        1 => book = Words::new(rng).book_bytes(),
        _ => {}
    }
    Sample { input, book }
}

fn damage_some(rng: &mut Rng, input: &mut Vec<u8>, book: &mut Vec<u8>, limit: usize) {
    if rng.once_in(3) {
        for _ in 0..rng.between(1, 2) {
            damage::text(rng, input);
        }
    }
    if rng.once_in(60) {
        damage::text(rng, book);
    }
    if rng.once_in(1_500) {
        damage::lengthen(rng, input, limit);
    }
}
