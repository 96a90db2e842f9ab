//! One call with all that it is given and lent, and what it leaves.

use crate::calls::{Answer, Calls};
use model::vectors::Call;

/// Bytes, and numbers of scratch, on either side of what is lent. No call may change them.
pub const MARGIN: usize = 24;

#[derive(Clone, Debug, PartialEq, Eq)]
pub struct Case {
    pub call: Call,
    pub input: Vec<u8>,
    pub book: Vec<u8>,
    pub answers: Vec<i32>,
    /// The length of the lent output.
    pub room: usize,
    /// The length of the lent scratch.
    pub scratch: usize,
    /// What the lent memory holds before the call.
    pub fill: u64,
}

/// What a call answered, and the lent memory afterwards with its margins.
#[derive(Clone, Debug, PartialEq, Eq)]
pub struct Seen {
    pub answer: Answer,
    pub buffer: Vec<u8>,
    pub scratch: Vec<u16>,
}

/// Makes the call of the case.
pub fn perform(calls: &dyn Calls, case: &Case) -> Seen {
    let mut buffer: Vec<u8> =
        (0..case.room + 2 * MARGIN).map(|place| filling(case.fill, place) as u8).collect();
    let mut scratch: Vec<u16> =
        (0..case.scratch + 2 * MARGIN).map(|place| filling(!case.fill, place)).collect();
    let lent = Lent {
        input: &case.input,
        book: &case.book,
        answers: &case.answers,
        scratch: &mut scratch[MARGIN..MARGIN + case.scratch],
        output: &mut buffer[MARGIN..MARGIN + case.room],
    };
    let answer = make(calls, case.call, lent);
    Seen { answer, buffer, scratch }
}

/// The slices of one call.
pub struct Lent<'a> {
    pub input: &'a [u8],
    pub book: &'a [u8],
    pub answers: &'a [i32],
    pub scratch: &'a mut [u16],
    pub output: &'a mut [u8],
}

/// Makes one call with the slices that it takes.
pub fn make(calls: &dyn Calls, call: Call, lent: Lent) -> Answer {
    let Lent { input, book, answers, scratch, output } = lent;
    match call {
        Call::Translate => calls.translate(input, book, output),
        Call::WritePlate => calls.write_plate(input, book, output),
        Call::ReadPlate => calls.read_plate(input, book, output),
        Call::Walk => calls.walk(input, book, answers, output),
        Call::Run => calls.run(input, book, answers, scratch, output),
    }
}

/// The content of one place before a call.
fn filling(fill: u64, place: usize) -> u16 {
    ((place as u64 + 1).wrapping_mul(fill.wrapping_mul(0x9E37_79B9_7F4A_7C15) | 1) >> 40) as u16
}
