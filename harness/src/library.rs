//! The calls of libdoorplate.a, as include/doorplate.h declares them.
//!
//! The pointer of a slice is never null, also where the slice is empty.

use crate::calls::{Answer, Calls};

/// `doorplate_written`.
#[repr(C)]
struct Written {
    number: u32,
    place: u64,
    length: u64,
}

/// `doorplate_ran`.
#[repr(C)]
struct Ran {
    number: u32,
    place: u64,
    length: u64,
    outcome: u32,
    taken: u64,
    steps: u64,
    wrong: u32,
}

extern "C" {
    fn doorplate_translate(
        guide: *const u8,
        guide_length: usize,
        book: *const u8,
        book_length: usize,
        plate: *mut u8,
        plate_length: usize,
    ) -> Written;
    fn doorplate_write_plate(
        listing: *const u8,
        listing_length: usize,
        book: *const u8,
        book_length: usize,
        plate: *mut u8,
        plate_length: usize,
    ) -> Written;
    fn doorplate_read_plate(
        plate: *const u8,
        plate_length: usize,
        book: *const u8,
        book_length: usize,
        listing: *mut u8,
        listing_length: usize,
    ) -> Written;
    fn doorplate_walk(
        guide: *const u8,
        guide_length: usize,
        book: *const u8,
        book_length: usize,
        answers: *const i32,
        answers_length: usize,
        transcript: *mut u8,
        transcript_length: usize,
    ) -> Ran;
    fn doorplate_run(
        plate: *const u8,
        plate_length: usize,
        book: *const u8,
        book_length: usize,
        answers: *const i32,
        answers_length: usize,
        scratch: *mut u16,
        scratch_length: usize,
        transcript: *mut u8,
        transcript_length: usize,
    ) -> Ran;
}

/// One of the three calls that write a plate or a listing.
type Writes = unsafe extern "C" fn(*const u8, usize, *const u8, usize, *mut u8, usize) -> Written;

/// The library.
pub struct Library;

impl Calls for Library {
    fn translate(&self, guide: &[u8], book: &[u8], plate: &mut [u8]) -> Answer {
        write(doorplate_translate, guide, book, plate)
    }

    fn write_plate(&self, listing: &[u8], book: &[u8], plate: &mut [u8]) -> Answer {
        write(doorplate_write_plate, listing, book, plate)
    }

    fn read_plate(&self, plate: &[u8], book: &[u8], listing: &mut [u8]) -> Answer {
        write(doorplate_read_plate, plate, book, listing)
    }

    fn walk(&self, guide: &[u8], book: &[u8], answers: &[i32], transcript: &mut [u8]) -> Answer {
        // SAFETY: each pointer and length is a slice's; the transcript is lent for writing alone.
        let ran = unsafe {
            doorplate_walk(
                guide.as_ptr(),
                guide.len(),
                book.as_ptr(),
                book.len(),
                answers.as_ptr(),
                answers.len(),
                transcript.as_mut_ptr(),
                transcript.len(),
            )
        };
        of_ran(&ran)
    }

    fn run(
        &self,
        plate: &[u8],
        book: &[u8],
        answers: &[i32],
        scratch: &mut [u16],
        transcript: &mut [u8],
    ) -> Answer {
        // SAFETY: as in walk; scratch and transcript are two slices, which do not overlap.
        let ran = unsafe {
            doorplate_run(
                plate.as_ptr(),
                plate.len(),
                book.as_ptr(),
                book.len(),
                answers.as_ptr(),
                answers.len(),
                scratch.as_mut_ptr(),
                scratch.len(),
                transcript.as_mut_ptr(),
                transcript.len(),
            )
        };
        of_ran(&ran)
    }
}

fn write(call: Writes, input: &[u8], book: &[u8], output: &mut [u8]) -> Answer {
    // SAFETY: each pointer and length is a slice's; the output is lent for writing alone.
    let written = unsafe {
        call(
            input.as_ptr(),
            input.len(),
            book.as_ptr(),
            book.len(),
            output.as_mut_ptr(),
            output.len(),
        )
    };
    Answer {
        number: written.number,
        place: written.place,
        length: written.length,
        ..Answer::default()
    }
}

fn of_ran(ran: &Ran) -> Answer {
    Answer {
        number: ran.number,
        place: ran.place,
        length: ran.length,
        outcome: ran.outcome,
        taken: ran.taken,
        steps: ran.steps,
        wrong: ran.wrong,
    }
}
