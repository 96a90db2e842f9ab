//! Plain random bytes, of all values or of a few.

use model::generate::Sample;
use model::rng::Rng;

/// What lines are made of.
const LINE_BYTES: &[u8] = b"phrasintexeflsgo,,,,\n\n0123-";

/// What letters beyond ASCII are made of, and what they are not.
const LETTER_BYTES: &[u8] = b"a,\n\x80\x9F\xA0\xA9\xBF\xC0\xC2\xC3\xC3\xE0\xE2\xED\xF0\xF4\xFF";

pub fn sample(rng: &mut Rng) -> Sample {
    let input = bytes(rng, 200);
    let book = if rng.once_in(2) { Vec::new() } else { bytes(rng, 40) };
    Sample { input, book }
}

fn bytes(rng: &mut Rng, most: usize) -> Vec<u8> {
    let kind = rng.below(5);
    let most = if rng.once_in(2) { most } else { most / 8 };
    let length = rng.between(0, most);
    (0..length)
        .map(|_| match kind {
            0 => rng.next_u64() as u8,
            1 => rng.between(32, 126) as u8,
            2 => *rng.pick(LINE_BYTES),
            3 => *rng.pick(LETTER_BYTES),
            // Few ones, so that a plate is read further.
            _ => (rng.next_u64() & rng.next_u64() & rng.next_u64()) as u8,
        })
        .collect()
}
