//! The lengths of the lent output and scratch.

use model::limits::SCRATCH;
use model::rng::Rng;
use model::vectors::Call;

/// The length of the model's result, or 0 where it refuses.
pub fn result_length(call: Call, input: &[u8], book: &[u8], answers: &[i32]) -> usize {
    let length = match call {
        Call::Translate => model::translate(input, book).map(|plate| plate.len()),
        Call::WritePlate => model::write_plate(input, book).map(|plate| plate.len()),
        Call::ReadPlate => model::read_plate(input, book).map(|listing| listing.len()),
        Call::Walk => model::walk(input, book, answers).map(|record| record.transcript.len()),
        Call::Run => model::run(input, book, answers).map(|record| record.transcript.len()),
    };
    length.unwrap_or(0)
}

/// A room that is exact, one short, longer, empty, or any.
pub fn room(rng: &mut Rng, length: usize) -> usize {
    match rng.below(20) {
        0..=6 => length,
        7..=9 => length.saturating_sub(1),
        10 => 0,
        11 => rng.between(0, length),
        12 => length + rng.between(64, 3_000),
        13 => length + 1,
        _ => length + rng.between(1, 64),
    }
}

pub fn scratch(rng: &mut Rng, call: Call) -> usize {
    if call != Call::Run {
        return 0;
    }
    match rng.below(16) {
        0 => SCRATCH - 1,
        1 => rng.below(2),
        2 => *rng.pick(&[SCRATCH + 1, 511, 512, 600]),
        3 => rng.between(0, 2 * SCRATCH),
        _ => SCRATCH,
    }
}
