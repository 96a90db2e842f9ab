//! The cases of `vectors_bits` that write numbers of 33 to 56 bits.

use super::collect::{value, writes_into_lengths, FAR, LONGEST};
use super::Case;
use crate::rng::Rng;
use std::ops::RangeInclusive;

const SEED: u64 = 0x5EED_0012;
const WIDTHS: RangeInclusive<usize> = 33..=56;
/// The least and the greatest width, and the one before it.
const LIMITS: [usize; 3] = [33, 55, 56];
const RANDOM: usize = 200;

pub fn collect(cases: &mut Vec<Case>) {
    let rng = &mut Rng::new(SEED);
    at_offsets(rng, cases);
    cut_anywhere(rng, cases);
    writes_into_lengths(rng, WIDTHS, cases);
    far(rng, cases);
    random(rng, cases);
}

/// All ones, in the bits that count, in all and in the others; ones and zeros in
/// turn; and any value.
fn values(rng: &mut Rng, width: usize) -> [u64; 6] {
    let low = (1 << width) - 1;
    let turns = u64::MAX / 3;
    [low, u64::MAX, !low, turns, !turns, rng.next_u64()]
}

/// Lengths of a buffer that goes on behind the number, ends eight and seven bytes
/// behind the start of its first byte, ends with its last byte, a byte before
/// that, with its first byte, and before it.
fn lengths(place: u64, width: usize) -> [u64; 7] {
    let first = place / 8;
    let exact = (place + width as u64).div_ceil(8);
    [LONGEST, first + 8, first + 7, exact, exact - 1, first + 1, first]
}

/// Every width at every bit of a byte, in buffers of all these lengths. In each
/// of them every width has every kind of value at one bit of a byte or another.
fn at_offsets(rng: &mut Rng, cases: &mut Vec<Case>) {
    for width in WIDTHS {
        for offset in 0..8 {
            let place = rng.below(4) as u64 * 8 + offset;
            for (number, length) in lengths(place, width).into_iter().enumerate() {
                let value = values(rng, width)[(offset as usize + number) % 6];
                cases.push(Case::Write { lent: length as usize, place, width, value });
            }
        }
    }
}

/// The limits at every bit of a byte, with room for each number of bytes.
fn cut_anywhere(rng: &mut Rng, cases: &mut Vec<Case>) {
    for width in LIMITS {
        for offset in 0..8 {
            let first = rng.below(4);
            for lent in first..=first + 8 {
                let place = first as u64 * 8 + offset;
                cases.push(Case::Write { lent, place, width, value: value(rng, width) });
            }
        }
    }
}

/// The limits far past the end, and where the place behind them is about 2^64.
fn far(rng: &mut Rng, cases: &mut Vec<Case>) {
    let last = [57, 56, 55, 54].map(|back| u64::MAX - back);
    for place in FAR.into_iter().chain(last) {
        for width in LIMITS {
            let lent = *rng.pick(&[0, 1, 12, 65]);
            cases.push(Case::Write { lent, place, width, value: value(rng, width) });
        }
    }
}

fn random(rng: &mut Rng, cases: &mut Vec<Case>) {
    for _ in 0..RANDOM {
        let [lent, width] = [rng.below(20), rng.between(33, 56)];
        let place = rng.below(lent * 8 + 12) as u64;
        cases.push(Case::Write { lent, place, width, value: value(rng, width) });
    }
}
