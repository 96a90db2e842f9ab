//! Cases of numbers read and written.

use super::Case;
use crate::rng::Rng;

/// The limits that the rules have, and others.
const LIMITS: [u32; 7] = [0, 9, 31, 511, 2_147_483_647, 2_147_483_648, 4_294_967_295];
/// Places from which a writer passes the greatest number.
const FAR: [u64; 6] = [1 << 32, 1 << 63, u64::MAX - 11, u64::MAX - 10, u64::MAX - 1, u64::MAX];

/// 0, every power of ten up to 10^19, and the neighbours of each.
fn round_numbers() -> Vec<u64> {
    let mut numbers = vec![0];
    for digits in 0..20 {
        let power = 10_u64.pow(digits);
        numbers.extend([power - 1, power, power + 1, power * 9 / 10 + power / 100]);
    }
    numbers.sort_unstable();
    numbers.dedup();
    numbers
}

/// A number as it is read, and in forms that are refused.
fn forms(value: u64) -> Vec<Vec<u8>> {
    let mut forms: Vec<Vec<u8>> = Vec::new();
    for (before, after) in [
        ("", ""),
        ("0", ""),
        ("+", ""),
        (" ", ""),
        ("", " "),
        ("", ","),
        ("", "/"),
        ("", ":"),
        ("", "."),
        ("00", ""),
        ("-0", ""),
        ("--", ""),
        ("-+", ""),
        ("", "-"),
        ("", "\0"),
    ] {
        forms.push(format!("{before}{value}{after}").into_bytes());
    }
    forms
}

/// Forms that hold no number, or one of many digits.
fn odd() -> Vec<Vec<u8>> {
    let mut odd: Vec<Vec<u8>> =
        ["", "-", "+", " ", "0", "-0", "+0", "00", "01", "-01", "+1", "- 1", "1e5", "0x1", "1.0"]
            .map(|form| form.as_bytes().to_vec())
            .to_vec();
    for first in [b'1', b'9', b'0', b'4'] {
        for length in [10, 11, 19, 20, 21, 40] {
            let mut digits = vec![b'0'; length];
            digits[0] = first;
            odd.push(digits);
            odd.push(vec![first; length]);
        }
    }
    odd.extend((0..=255).map(|byte| vec![byte]));
    odd.push(b"18446744073709551616".to_vec());
    odd.push(b"18446744073709551617".to_vec());
    odd.push(b"4294967296".to_vec());
    odd.push(b"42949672960000000000000000000000000000".to_vec());
    odd
}

pub fn natural(cases: &mut Vec<Case>) {
    for limit in LIMITS {
        let high = u64::from(limit);
        let about = [0, 1, high / 10, high.saturating_sub(1), high, high + 1, high + 2, high * 10];
        for bytes in about.into_iter().flat_map(forms).chain([Vec::new()]) {
            cases.push(Case::Natural { limit, bytes });
        }
        for value in round_numbers() {
            cases.push(Case::Natural { limit, bytes: value.to_string().into_bytes() });
        }
    }
    for limit in LIMITS {
        cases.extend(odd().into_iter().map(|bytes| Case::Natural { limit, bytes }));
    }
}

pub fn constant(cases: &mut Vec<Case>) {
    let end: u64 = 1 << 31;
    for value in [0, 1, 9, 10, end - 2, end - 1, end, end + 1, end + 2, 2 * end - 1, 2 * end] {
        for mut bytes in forms(value) {
            cases.push(Case::Constant { bytes: bytes.clone() });
            bytes.insert(0, b'-');
            cases.push(Case::Constant { bytes });
        }
    }
    for value in round_numbers() {
        cases.push(Case::Constant { bytes: format!("{value}").into_bytes() });
        cases.push(Case::Constant { bytes: format!("-{value}").into_bytes() });
    }
    for mut bytes in odd() {
        cases.push(Case::Constant { bytes: bytes.clone() });
        bytes.insert(0, b'-');
        cases.push(Case::Constant { bytes });
    }
}

/// The lengths and places to write `length` bytes: exact, one short, longer,
/// none, at a place, past the end, and where the place passes the last number.
fn lent(rng: &mut Rng, length: usize) -> Vec<(usize, u64)> {
    let at = rng.between(1, 6);
    let mut lent = vec![(length, 0), (length - 1, 0), (length + rng.between(1, 9), 0), (0, 0)];
    lent.extend([(at + length, at as u64), (at + length - 1, at as u64), (at, at as u64)]);
    lent.push((*rng.pick(&[0, 12, 64, 65, 100]), *rng.pick(&FAR)));
    lent
}

pub fn put_natural(rng: &mut Rng, cases: &mut Vec<Case>) {
    let mut values: Vec<u32> =
        round_numbers().into_iter().filter_map(|value| u32::try_from(value).ok()).collect();
    values.extend([1 << 31, (1 << 31) - 1, u32::MAX - 1, u32::MAX]);
    for value in values {
        for (lent, place) in lent(rng, value.to_string().len()) {
            cases.push(Case::PutNatural { lent, place, value });
        }
    }
}

pub fn put_number(rng: &mut Rng, cases: &mut Vec<Case>) {
    let mut values: Vec<i32> =
        round_numbers().into_iter().filter_map(|value| i32::try_from(value).ok()).collect();
    values.extend(values.clone().into_iter().map(|value| -value));
    values.extend([i32::MAX - 1, i32::MAX, i32::MIN, i32::MIN + 1, i32::MIN + 2]);
    for value in values {
        for (lent, place) in lent(rng, value.to_string().len()) {
            cases.push(Case::PutNumber { lent, place, value });
        }
    }
}
