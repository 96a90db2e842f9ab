//! The cases of `vectors_bits`; here those of numbers of 0 to 32 bits.

use super::{eight, wide, Case};
use crate::rng::Rng;
use std::ops::RangeInclusive;

const SEED: u64 = 0x5EED_0011;
const WIDTHS: RangeInclusive<usize> = 0..=32;
/// The longest buffer whose ends are all tried.
pub const LONGEST: u64 = 12;
const RANDOM: usize = 500;

/// Places that are far past the end, and where eight times a place, or a place
/// and a width, pass 2^32 or 2^64.
pub const FAR: [u64; 20] = [
    (1 << 29) - 1,
    1 << 29,
    (1 << 32) - 1,
    1 << 32,
    (1 << 32) + 1,
    (1 << 32) + 8,
    1 << 35,
    (1 << 35) + 8,
    (1 << 61) - 1,
    1 << 61,
    (1 << 61) + 8,
    (1 << 63) - 1,
    1 << 63,
    (1 << 63) + 8,
    u64::MAX - 33,
    u64::MAX - 32,
    u64::MAX - 31,
    u64::MAX - 8,
    u64::MAX - 1,
    u64::MAX,
];

pub fn collect() -> Vec<Case> {
    let mut rng = Rng::new(SEED);
    let mut cases = Vec::new();
    reads_at_ends(&mut rng, &mut cases);
    at_offsets(&mut rng, &mut cases);
    writes_into_lengths(&mut rng, WIDTHS, &mut cases);
    far(&mut rng, &mut cases);
    random(&mut rng, &mut cases);
    wide::collect(&mut cases);
    eight::collect(&mut cases);
    cases
}

pub fn bytes(rng: &mut Rng, length: u64) -> Vec<u8> {
    match rng.below(8) {
        0 => vec![0; length as usize],
        1 => vec![0xFF; length as usize],
        _ => (0..length).map(|_| rng.below(256) as u8).collect(),
    }
}

/// A value: all ones, a single one, only bits that do not count, or any.
pub fn value(rng: &mut Rng, width: usize) -> u64 {
    let low = (1 << width) - 1;
    match rng.below(6) {
        0 => low,
        1 => 1 << width >> 1,
        2 => !low,
        3 => rng.next_u64() & low,
        _ => rng.next_u64(),
    }
}

/// Places about the last at which a number of `width` bits has room, and about
/// the end of `length` bytes.
fn ends(length: u64, width: usize) -> Vec<u64> {
    let end = length * 8;
    let mut places: Vec<u64> = Vec::new();
    for about in [end.checked_sub(width as u64), Some(end)].into_iter().flatten() {
        places.extend([about.saturating_sub(1), about, about + 1]);
    }
    places.sort_unstable();
    places.dedup();
    places
}

/// Every width in every length of buffer: at, before and past the end.
fn reads_at_ends(rng: &mut Rng, cases: &mut Vec<Case>) {
    for length in 0..=LONGEST {
        for width in WIDTHS {
            for place in ends(length, width) {
                cases.push(Case::Read { bytes: bytes(rng, length), place, width });
            }
        }
    }
}

/// Lengths of a buffer that goes on behind the number, ends with its last byte,
/// ends a byte before that, and ends before its first.
fn lengths(place: u64, width: usize) -> [u64; 4] {
    let exact = (place + width as u64).div_ceil(8);
    [LONGEST, exact, exact.saturating_sub(1), place / 8]
}

/// Every width at every bit of a byte, in buffers of all these lengths.
fn at_offsets(rng: &mut Rng, cases: &mut Vec<Case>) {
    for width in WIDTHS {
        for offset in 0..8 {
            let place = rng.below(5) as u64 * 8 + offset;
            for length in lengths(place, width) {
                cases.push(Case::Read { bytes: bytes(rng, length), place, width });
                let value = value(rng, width);
                cases.push(Case::Write { lent: length as usize, place, width, value });
            }
        }
    }
}

/// Each of the widths, the last bits of it past the end of each length; and
/// lengths about the longest that is shown in full.
pub fn writes_into_lengths(rng: &mut Rng, widths: RangeInclusive<usize>, cases: &mut Vec<Case>) {
    for length in (0..=LONGEST).chain([63, 64, 65, 200, 256]) {
        for width in widths.clone() {
            let end = length * 8;
            let place = (end + rng.below(3) as u64).saturating_sub(rng.below(width + 1) as u64);
            let value = value(rng, width);
            cases.push(Case::Write { lent: length as usize, place, width, value });
        }
    }
}

fn far(rng: &mut Rng, cases: &mut Vec<Case>) {
    for place in FAR {
        for width in [0, 1, 7, 8, 9, 31, 32] {
            for length in [0, 1, LONGEST] {
                cases.push(Case::Read { bytes: bytes(rng, length), place, width });
            }
            let lent = *rng.pick(&[0, 1, 12, 65]);
            cases.push(Case::Write { lent, place, width, value: value(rng, width) });
        }
    }
}

fn random(rng: &mut Rng, cases: &mut Vec<Case>) {
    for _ in 0..RANDOM {
        let [length, width] = [rng.below(20), rng.below(33)];
        let place = rng.below(length * 8 + 12) as u64;
        cases.push(Case::Read { bytes: bytes(rng, length as u64), place, width });
        cases.push(Case::Write { lent: length, place, width, value: value(rng, width) });
    }
}
