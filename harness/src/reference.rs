//! The calls of the model, with the fields that include/doorplate.h promises:
//! accepted, number and place are 0; refused, every other field is 0.

use crate::calls::{Answer, Calls};
use model::calls;
use model::Refusal;

/// The model.
pub struct Model;

impl Calls for Model {
    fn translate(&self, guide: &[u8], book: &[u8], plate: &mut [u8]) -> Answer {
        of_written(calls::translate(guide, book, plate))
    }

    fn write_plate(&self, listing: &[u8], book: &[u8], plate: &mut [u8]) -> Answer {
        of_written(calls::write_plate(listing, book, plate))
    }

    fn read_plate(&self, plate: &[u8], book: &[u8], listing: &mut [u8]) -> Answer {
        of_written(calls::read_plate(plate, book, listing))
    }

    fn walk(&self, guide: &[u8], book: &[u8], answers: &[i32], transcript: &mut [u8]) -> Answer {
        of_ran(calls::walk(guide, book, answers, transcript))
    }

    fn run(
        &self,
        plate: &[u8],
        book: &[u8],
        answers: &[i32],
        scratch: &mut [u16],
        transcript: &mut [u8],
    ) -> Answer {
        of_ran(calls::run(plate, book, answers, scratch, transcript))
    }
}

fn of_written(written: Result<usize, Refusal>) -> Answer {
    match written {
        Ok(length) => Answer { length: length as u64, ..Answer::default() },
        Err(refusal) => of_refusal(refusal),
    }
}

fn of_ran(ran: Result<calls::Ran, Refusal>) -> Answer {
    match ran {
        Ok(ran) => Answer {
            number: 0,
            place: 0,
            length: ran.length as u64,
            outcome: ran.outcome,
            taken: ran.taken as u64,
            steps: ran.steps as u64,
            wrong: ran.wrong,
        },
        Err(refusal) => of_refusal(refusal),
    }
}

fn of_refusal(refusal: Refusal) -> Answer {
    Answer { number: refusal.number, place: refusal.place as u64, ..Answer::default() }
}
