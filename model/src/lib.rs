//! A model of door-plate guides: the translator, the listing and plate
//! converter, the walker and the plate runner of document 01.
//!
//! The functions here give their whole result as a value. [`calls`] has the
//! same five with lent buffers.

pub mod action;
pub mod bits;
pub mod calls;
pub mod cases;
pub mod examples;
pub mod generate;
pub mod guide;
pub mod limits;
pub mod lines;
pub mod listing;
pub mod machine;
pub mod number;
pub mod phrases;
pub mod plate;
pub mod program;
pub mod refusal;
pub mod rng;
pub mod run;
pub mod show;
pub mod text;
pub mod translate;
pub mod vectors;
pub mod walk;

use phrases::Phrases;

pub use machine::Record;
pub use refusal::Refusal;

/// Guide to plate.
pub fn translate(guide: &[u8], book: &[u8]) -> Result<Vec<u8>, Refusal> {
    let phrases = Phrases::of_book(book)?;
    let guide = guide::read(guide)?;
    plate::write(&translate::program(guide, phrases))
}

/// Listing to plate.
pub fn write_plate(listing: &[u8], book: &[u8]) -> Result<Vec<u8>, Refusal> {
    plate::write(&listing::read(listing, book)?)
}

/// Plate to listing.
pub fn read_plate(plate: &[u8], book: &[u8]) -> Result<Vec<u8>, Refusal> {
    let mut characters = plate::room_for_characters(plate);
    let program = plate::read(plate, book, &mut characters)?;
    Ok(listing::write(&program))
}

/// Runs a guide from its text.
pub fn walk(guide: &[u8], book: &[u8], answers: &[i32]) -> Result<Record, Refusal> {
    Phrases::of_book(book)?;
    let guide = guide::read(guide)?;
    Ok(walk::walk(&guide, answers))
}

/// Runs a plate.
pub fn run(plate: &[u8], book: &[u8], answers: &[i32]) -> Result<Record, Refusal> {
    let mut characters = plate::room_for_characters(plate);
    let program = plate::read(plate, book, &mut characters)?;
    Ok(run::run(&program, answers))
}
