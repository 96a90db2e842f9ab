//! The five calls with lent buffers. A refused call leaves `out` as it was,
//! and the bytes past the result stay in any case.

use crate::limits::SCRATCH;
use crate::machine::Record;
use crate::refusal::{cause, refuse, Refusal};

/// What a walk or run returns beside the transcript at the front of `out`.
#[derive(Clone, Copy, Debug, PartialEq, Eq)]
pub struct Ran {
    pub length: usize,
    pub outcome: u32,
    pub taken: usize,
    pub steps: usize,
    pub wrong: u32,
}

pub fn translate(guide: &[u8], book: &[u8], out: &mut [u8]) -> Result<usize, Refusal> {
    hand_over(&crate::translate(guide, book)?, out)
}

pub fn write_plate(listing: &[u8], book: &[u8], out: &mut [u8]) -> Result<usize, Refusal> {
    hand_over(&crate::write_plate(listing, book)?, out)
}

pub fn read_plate(plate: &[u8], book: &[u8], out: &mut [u8]) -> Result<usize, Refusal> {
    hand_over(&crate::read_plate(plate, book)?, out)
}

pub fn walk(guide: &[u8], book: &[u8], answers: &[i32], out: &mut [u8]) -> Result<Ran, Refusal> {
    hand_over_record(&crate::walk(guide, book, answers)?, out)
}

/// The model keeps its instructions elsewhere and does not touch `scratch`.
pub fn run(
    plate: &[u8],
    book: &[u8],
    answers: &[i32],
    scratch: &mut [u16],
    out: &mut [u8],
) -> Result<Ran, Refusal> {
    let record = crate::run(plate, book, answers)?;
    if scratch.len() < SCRATCH {
        return refuse(cause::SHORT_BUFFER, 0);
    }
    hand_over_record(&record, out)
}

fn hand_over(result: &[u8], out: &mut [u8]) -> Result<usize, Refusal> {
    let Some(front) = out.get_mut(..result.len()) else {
        return refuse(cause::SHORT_BUFFER, 0);
    };
    front.copy_from_slice(result);
    Ok(result.len())
}

fn hand_over_record(record: &Record, out: &mut [u8]) -> Result<Ran, Refusal> {
    Ok(Ran {
        length: hand_over(&record.transcript, out)?,
        outcome: record.outcome as u32,
        taken: record.taken,
        steps: record.steps,
        wrong: record.wrong,
    })
}
