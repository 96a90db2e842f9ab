//! Time, growth, stack and instructions of the calls, beside the model.

pub mod count;
pub mod growth;
pub mod inputs;
pub mod sizes;
pub mod stack;
pub mod table;
pub mod time;

use crate::library::Library;
use crate::perform::{perform, Case, Lent};
use crate::reference::Model;
use model::limits::SCRATCH;
use model::vectors::Call;

/// The calls that take a listing or its plate, where own phrases may stand.
pub const OF_LISTING: [Call; 3] = [Call::WritePlate, Call::ReadPlate, Call::Run];

/// Room for the longest result, which is a transcript.
const MOST: usize = 918_016;

/// A guide, a listing, a book and answers.
pub struct Subject {
    pub guide: Vec<u8>,
    pub listing: Vec<u8>,
    pub book: Vec<u8>,
    pub answers: Vec<i32>,
}

impl Subject {
    /// A guide, with the listing of its plate.
    pub fn of_guide(guide: Vec<u8>, book: Vec<u8>, answers: Vec<i32>) -> Subject {
        let plate = model::translate(&guide, &book).expect("an accepted guide");
        let listing = model::read_plate(&plate, &book).expect("an accepted plate");
        Subject { guide, listing, book, answers }
    }

    /// A listing that is no guide's, for the calls `OF_LISTING` alone.
    pub fn of_listing(listing: Vec<u8>, book: Vec<u8>, answers: Vec<i32>) -> Subject {
        Subject { guide: Vec::new(), listing, book, answers }
    }

    /// What a call takes of it.
    pub fn work(&self, call: Call) -> Work {
        let input = match call {
            Call::Translate | Call::Walk => self.guide.clone(),
            Call::WritePlate => self.listing.clone(),
            Call::ReadPlate | Call::Run => {
                model::write_plate(&self.listing, &self.book).expect("an accepted listing")
            }
        };
        Work { call, input, book: self.book.clone(), answers: self.answers.clone(), room: MOST }
    }
}

/// A call and what it is given: `room` is the length of the lent output.
pub struct Work {
    pub call: Call,
    pub input: Vec<u8>,
    pub book: Vec<u8>,
    pub answers: Vec<i32>,
    pub room: usize,
}

impl Work {
    /// The slices of the call, with memory for what it writes.
    pub fn lent<'a>(&'a self, memory: &'a mut Memory) -> Lent<'a> {
        Lent {
            input: &self.input,
            book: &self.book,
            answers: &self.answers,
            scratch: &mut memory.scratch,
            output: &mut memory.output[..self.room],
        }
    }

    /// The same with an output as long as the result. Where it is not sure that such an output is long enough, walk, run and
    /// read_plate make two passes.
    pub fn exact(mut self) -> Work {
        self.room = perform(&Model, &self.case()).answer.length as usize;
        self
    }

    fn case(&self) -> Case {
        Case {
            call: self.call,
            input: self.input.clone(),
            book: self.book.clone(),
            answers: self.answers.clone(),
            room: self.room,
            scratch: SCRATCH,
            fill: 1,
        }
    }

    /// The library and the model accept the input, and leave the same.
    pub fn check(&self) {
        let case = self.case();
        let expected = perform(&Model, &case);
        assert!(expected.answer.is_accepted(), "{}: the model refuses", self.call.name());
        assert!(perform(&Library, &case) == expected, "{}: a difference", self.call.name());
    }
}

/// What is lent for writing.
pub struct Memory {
    output: Vec<u8>,
    scratch: Vec<u16>,
}

impl Default for Memory {
    fn default() -> Memory {
        Memory { output: vec![0; MOST], scratch: vec![0; SCRATCH] }
    }
}
