//! The cases of `vectors_bits` that read 56 bits as one number.

use super::collect::{bytes, FAR, LONGEST};
use super::Case;
use crate::rng::Rng;

const SEED: u64 = 0x5EED_0013;
const RANDOM: usize = 300;

pub fn collect(cases: &mut Vec<Case>) {
    let rng = &mut Rng::new(SEED);
    at_ends(rng, cases);
    far(rng, cases);
    random(rng, cases);
}

/// Bytes of a buffer: its first, the last from which eight are left, the one
/// behind that, the buffer's last, and the one past its end.
fn firsts(length: u64) -> Vec<u64> {
    let about = [Some(0), length.checked_sub(8), length.checked_sub(7), length.checked_sub(1)];
    let mut firsts: Vec<u64> = about.into_iter().flatten().chain([length]).collect();
    firsts.sort_unstable();
    firsts.dedup();
    firsts
}

/// Every bit of these bytes, in buffers from the empty one on.
fn at_ends(rng: &mut Rng, cases: &mut Vec<Case>) {
    for length in (0..=LONGEST).chain([16, 64]) {
        for first in firsts(length) {
            for place in first * 8..first * 8 + 8 {
                cases.push(Case::ReadEight { bytes: bytes(rng, length), place });
            }
        }
    }
}

fn far(rng: &mut Rng, cases: &mut Vec<Case>) {
    for place in FAR {
        for length in [0, 8, LONGEST] {
            cases.push(Case::ReadEight { bytes: bytes(rng, length), place });
        }
    }
}

fn random(rng: &mut Rng, cases: &mut Vec<Case>) {
    for _ in 0..RANDOM {
        let length = rng.between(8, 31);
        let place = rng.below(length * 8 + 12) as u64;
        cases.push(Case::ReadEight { bytes: bytes(rng, length as u64), place });
    }
}
