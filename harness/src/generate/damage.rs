//! Damage beyond the model's: bytes flipped, cut out, put in and doubled, and letters beyond ASCII spoiled.

use model::cases::Source;
use model::generate::{damage, letters, words::Words};
use model::rng::Rng;

/// Damages a guide, listing or plate.
pub fn input(rng: &mut Rng, source: Source, bytes: &mut Vec<u8>) {
    for _ in 0..rng.between(1, 3) {
        match (rng.below(9), source) {
            (8, _) => letters::spoil(rng, bytes),
            (0, _) => double(rng, bytes),
            (1, _) => cut_out(rng, bytes),
            (2, _) => put_in(rng, bytes),
            (3, _) => flip(rng, bytes),
            (4, Source::Plate) => front(rng, bytes),
            (_, Source::Plate) => damage::plate(rng, bytes),
            _ => damage::text(rng, bytes),
        }
    }
}

/// Damages a book, or takes another.
pub fn book(rng: &mut Rng, bytes: &mut Vec<u8>) {
    match rng.below(7) {
        6 => letters::spoil(rng, bytes),
        0 => *bytes = Words::new(rng).book_bytes(),
        1 => double(rng, bytes),
        2 => cut_out(rng, bytes),
        3 => flip(rng, bytes),
        _ => damage::text(rng, bytes),
    }
}

/// Repeats a part behind itself.
fn double(rng: &mut Rng, bytes: &mut Vec<u8>) {
    let [start, end] = part(rng, bytes.len());
    let copy = bytes[start..end].to_vec();
    bytes.splice(end..end, copy);
}

fn cut_out(rng: &mut Rng, bytes: &mut Vec<u8>) {
    let [start, end] = part(rng, bytes.len());
    bytes.drain(start..end);
}

/// Puts any bytes in.
fn put_in(rng: &mut Rng, bytes: &mut Vec<u8>) {
    let at = rng.between(0, bytes.len());
    let more: Vec<u8> = (0..rng.between(1, 4)).map(|_| rng.next_u64() as u8).collect();
    bytes.splice(at..at, more);
}

/// Flips one to eight bits, anywhere.
fn flip(rng: &mut Rng, bytes: &mut [u8]) {
    for _ in 0..rng.between(1, 8) {
        if !bytes.is_empty() {
            let at = rng.below(bytes.len());
            bytes[at] ^= 1 << rng.below(8);
        }
    }
}

/// Flips a bit among the first 64, where a plate has its counts.
fn front(rng: &mut Rng, bytes: &mut [u8]) {
    let first = bytes.len().min(8);
    flip(rng, &mut bytes[..first]);
}

/// The start and end of a part, mostly a short one.
fn part(rng: &mut Rng, length: usize) -> [usize; 2] {
    let start = rng.between(0, length);
    let most = if rng.once_in(4) { length - start } else { (length - start).min(12) };
    [start, start + rng.between(0, most)]
}
