//! The cases of each call: those at the limits, then random ones.

use super::{Call, Vector};
use crate::cases::records::{self, RecordCase};
use crate::cases::{self, Source};
use crate::generate::{self, Sample};
use crate::limits::{MAX_LISTING, SCRATCH};
use crate::rng::Rng;

const SEED: u64 = 0x5EED_0001;
/// Random cases, and how many of them may be long.
const RANDOM: usize = 1_500;
const LONG_ONES: usize = 30;
const SHORT_LENGTH: usize = 900;
const LONG_LENGTH: usize = 8_000;
/// The longest lent output.
const LONGEST: usize = MAX_LISTING;

pub fn collect(call: Call) -> Vec<Vector> {
    let mut rng = Rng::new(SEED + call as u64);
    let mut vectors = limits(call, &mut rng);
    vectors.extend(recorded(call));
    vectors.extend(lent_limits(call));
    random(call, &mut rng, &mut vectors);
    vectors
}

/// The cases at the limits, lent what the result takes or a little more.
fn limits(call: Call, rng: &mut Rng) -> Vec<Vector> {
    let groups = cases::GROUPS.iter().copied().flatten();
    let cases = groups.flat_map(|(_, cases)| cases());
    let mut vectors = Vec::new();
    for case in cases.filter(|case| case.source == call.source()) {
        let mut vector = with_answers(case.input, case.book, rng);
        vector.lent = match vector.result_length(call) {
            Some(length) => length + rng.pick(&[0, 0, 1, 7]),
            None => *rng.pick(&[0, 1, 5, 20]),
        };
        vectors.push(vector);
    }
    vectors
}

/// The walks and runs worked out by hand, but for the longest transcript, for which a
/// program had to keep 918,016 bytes.
fn recorded(call: Call) -> Vec<Vector> {
    if !call.takes_answers() {
        return Vec::new();
    }
    let mut vectors = Vec::new();
    let cases = records::GROUPS.iter().flat_map(|(_, cases)| cases());
    for case in cases.filter(|case| case.transcript.len() <= LONGEST) {
        let Some(input) = input_for(call, &case) else { continue };
        let lent = case.transcript.len();
        let (book, answers) = (case.book, case.answers);
        vectors.push(Vector { lent, input, book, answers, scratch: SCRATCH });
    }
    vectors
}

/// A record's guide for walk; for run its plate, or the plate of its guide.
fn input_for(call: Call, case: &RecordCase) -> Option<Vec<u8>> {
    match (call, case.source) {
        (Call::Walk, Source::Guide) | (Call::Run, Source::Plate) => Some(case.input.clone()),
        (Call::Run, Source::Guide) => crate::translate(&case.input, &case.book).ok(),
        _ => None,
    }
}

/// One input of every call with each lent length about the result's, and each
/// scratch about the least; 511 and 512 are enough.
fn lent_limits(call: Call) -> Vec<Vector> {
    let input = match call.source() {
        Source::Guide => b"input,0,Volts\nif,0,lt,100\nprint,low\nfi\nprintex,end\n".to_vec(),
        Source::Listing => b"input,0,Volts\ngoto,0\nprintex,end\n".to_vec(),
        Source::Plate => crate::write_plate(b"input,0,Volts\ngoto,0\nprintex,end\n", b"")
            .expect("an accepted listing"),
    };
    let vector = |lent, scratch| {
        let (book, answers) = (Vec::new(), vec![90]);
        Vector { lent, input: input.clone(), book, answers, scratch }
    };
    let length = vector(0, SCRATCH).result_length(call).expect("an accepted input");
    let mut vectors = Vec::new();
    for lent in (0..=length + 3).chain([63, 64, 65, 66, 200, 1_000, 70_000]) {
        vectors.push(vector(lent, SCRATCH));
    }
    if call == Call::Run {
        for scratch in [0, 1, SCRATCH - 1, SCRATCH, SCRATCH + 1, 511, 512, 600] {
            vectors.extend([length - 1, length, 100].map(|lent| vector(lent, scratch)));
        }
    }
    vectors
}

fn random(call: Call, rng: &mut Rng, vectors: &mut Vec<Vector>) {
    let mut long_ones = 0;
    let wanted = vectors.len() + RANDOM;
    while vectors.len() < wanted {
        let Sample { input, book } = match call.source() {
            Source::Guide => generate::guide(rng),
            Source::Listing => generate::listing(rng),
            Source::Plate => generate::plate(rng),
        };
        let mut vector = with_answers(input, book, rng);
        if vector.written_length() > SHORT_LENGTH {
            if vector.written_length() > LONG_LENGTH || long_ones == LONG_ONES {
                continue;
            }
            long_ones += 1;
        }
        if rng.once_in(20) {
            vector.scratch = *rng.pick(&[0, SCRATCH - 1, SCRATCH + 1]);
        }
        vector.lent = match vector.result_length(call) {
            Some(length) => lent_near(rng, length),
            None => *rng.pick(&[0, 3, 20, 64, 100]),
        };
        vectors.push(vector);
    }
}

/// A lent length: what the result takes, more, or now and then less.
fn lent_near(rng: &mut Rng, length: usize) -> usize {
    match rng.below(10) {
        0 => length.saturating_sub(1),
        1 => rng.between(0, length),
        2..=5 => length,
        _ => length + rng.between(1, 20),
    }
}

fn with_answers(input: Vec<u8>, book: Vec<u8>, rng: &mut Rng) -> Vector {
    let answers = generate::answers(rng);
    Vector { lent: 0, input, book, answers, scratch: SCRATCH }
}

impl Vector {
    /// The length of the result, with room and scratch enough; None if refused.
    fn result_length(&self, call: Call) -> Option<usize> {
        let (input, book, answers) = (&self.input[..], &self.book[..], &self.answers[..]);
        let result = match call {
            Call::Translate => crate::translate(input, book),
            Call::WritePlate => crate::write_plate(input, book),
            Call::ReadPlate => crate::read_plate(input, book),
            Call::Walk => crate::walk(input, book, answers).map(|record| record.transcript),
            Call::Run => crate::run(input, book, answers).map(|record| record.transcript),
        };
        result.ok().map(|bytes| bytes.len())
    }
}
