//! Random listings, accepted but for a few limits.

use super::words::{action, constant, op, register, size, Words};
use crate::rng::Rng;

pub fn listing(rng: &mut Rng, words: &Words) -> Vec<u8> {
    let mut out = words.phrase_lines(rng);
    let count = size(rng);
    let jump_share = *rng.pick(&[0, 2, 6, 12]);
    for at in 0..count {
        let line = if rng.below(16) < jump_share {
            jump(rng, count - at - 1).into_bytes()
        } else {
            action(rng, words)
        };
        out.extend(line);
        out.push(b'\n');
    }
    out
}

/// A goto or if with `after` instructions after it.
fn jump(rng: &mut Rng, after: usize) -> String {
    let skip = match rng.below(200) {
        0 => after + 1,
        1..=20 => after,
        21..=120 => rng.between(0, after.min(2)),
        _ => rng.between(0, after),
    };
    match rng.below(3) {
        0 => format!("goto,{skip}"),
        _ => format!("if,{},{},{},{skip}", register(rng), op(rng), constant(rng)),
    }
}
