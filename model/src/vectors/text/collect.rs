//! The cases of `vectors_text`.

use super::{letters, numbers, Case};
use crate::rng::Rng;

const SEED: u64 = 0x5EED_0012;
const RANDOM: usize = 60;
/// Bytes about the ends of what is allowed, and the comma.
const ODD_BYTES: [u8; 11] = [0, 10, 31, 32, 43, 44, 45, 126, 127, 128, 255];
const LENGTHS: [usize; 8] = [0, 1, 2, 63, 64, 65, 66, 130];

pub fn collect() -> Vec<Case> {
    let mut rng = Rng::new(SEED);
    let mut cases = Vec::new();
    texts(&mut rng, &mut cases);
    parts(&mut rng, &mut cases);
    fields(&mut rng, &mut cases);
    numbers::natural(&mut cases);
    numbers::constant(&mut cases);
    numbers::put_natural(&mut rng, &mut cases);
    numbers::put_number(&mut rng, &mut cases);
    put(&mut rng, &mut cases);
    same(&mut rng, &mut cases);
    find(&mut rng, &mut cases);
    letters::collect(&mut cases);
    cases
}

/// Characters that may stand in a text.
fn characters(rng: &mut Rng, length: usize) -> Vec<u8> {
    let letters = b"abcxyzABC019 .-+!~";
    (0..length).map(|_| *rng.pick(letters)).collect()
}

/// Every length with an odd byte at each end and between; every single byte.
fn texts(rng: &mut Rng, cases: &mut Vec<Case>) {
    cases.extend((0..=255).map(|byte| Case::Text { bytes: vec![byte] }));
    for length in LENGTHS {
        let bytes = characters(rng, length);
        cases.push(Case::Text { bytes: bytes.clone() });
        if length == 0 {
            continue;
        }
        for odd in ODD_BYTES {
            for place in [0, length / 2, length - 1] {
                let mut bytes = bytes.clone();
                bytes[place] = odd;
                cases.push(Case::Text { bytes });
            }
        }
    }
}

/// All strings of up to 4 bytes, each a comma or not, and longer ones.
fn parts(rng: &mut Rng, cases: &mut Vec<Case>) {
    for length in 0..=4 {
        for choice in 0..1 << length {
            let bytes = (0..length).map(|bit| b",a"[choice >> bit & 1]).collect();
            cases.push(Case::Parts { by: b',', bytes });
        }
    }
    for _ in 0..RANDOM {
        for by in [b',', b'\n', b'b', 0, 255] {
            let alphabet = [by, b'a', b',', b'\n', 200];
            let length = rng.between(0, 30);
            let bytes = (0..length).map(|_| *rng.pick(&alphabet)).collect();
            cases.push(Case::Parts { by, bytes });
        }
    }
}

/// Fields that are texts or not, from each field on and past the last.
fn fields(rng: &mut Rng, cases: &mut Vec<Case>) {
    for _ in 0..RANDOM {
        let count = rng.between(1, 5);
        let bad = rng.below(count + 2);
        let mut bytes = Vec::new();
        for number in 0..count {
            if number > 0 {
                bytes.push(b',');
            }
            let length = *rng.pick(&[1, 2, 5, 5, 5, 64]);
            let mut field = characters(rng, length);
            if number == bad {
                match rng.below(3) {
                    0 => field.clear(),
                    1 => field.resize(65, b'z'),
                    _ => field[length - 1] = *rng.pick(&[0, 10, 31, 127, 255]),
                }
            }
            bytes.extend(field);
        }
        let last = count as u64;
        for from in (0..=last + 1).chain([1 << 32, u64::MAX]) {
            cases.push(Case::Texts { from, bytes: bytes.clone() });
        }
    }
}

/// Texts of every length, written with room, without, and at the end.
fn put(rng: &mut Rng, cases: &mut Vec<Case>) {
    for length in 0..=20 {
        let place = rng.below(12) as u64;
        let end = place as usize + length;
        for lent in [end, end.saturating_sub(1), end + 3, place as usize, end + 64, 0] {
            let bytes: Vec<u8> = (0..length).map(|_| rng.below(256) as u8).collect();
            cases.push(Case::Put { lent, place, bytes });
        }
    }
    for place in [1 << 32, u64::MAX - 3, u64::MAX - 2, u64::MAX] {
        cases.push(Case::Put { lent: 12, place, bytes: b"abc".to_vec() });
    }
}

/// The same bytes, one of them changed, and more or fewer of them.
fn same(rng: &mut Rng, cases: &mut Vec<Case>) {
    for length in (0..=10_usize).chain([63, 64, 65]) {
        let one: Vec<u8> = (0..length).map(|_| rng.below(256) as u8).collect();
        let mut others = vec![one.clone(), Vec::new(), [&one[..], b"\0"].concat()];
        others.push(one[..length.saturating_sub(1)].to_vec());
        for place in 0..length.min(10) {
            let mut other = one.clone();
            other[place] ^= 1 << rng.below(8);
            others.push(other);
        }
        for other in others {
            cases.push(Case::Same { one: one.clone(), other });
        }
    }
}

/// A byte that is there or not, from each place on.
fn find(rng: &mut Rng, cases: &mut Vec<Case>) {
    for length in 0..=12 {
        let bytes: Vec<u8> = (0..length).map(|_| *rng.pick(b",a\n\xFF")).collect();
        for from in 0..=length as u64 {
            let byte = *rng.pick(b",a\n\xFF\0");
            cases.push(Case::Find { from, byte, bytes: bytes.clone() });
        }
    }
}
