//! What the program `plateshow` prints.

use crate::phrases::Phrases;
use crate::refusal::Refusal;
use crate::{guide, listing, plate, translate};

/// The listing and the plate of a guide, with an empty book.
pub fn plateshow(guide: &[u8]) -> Vec<u8> {
    match shown(guide) {
        Ok(text) => text,
        Err(Refusal { number, place }) => format!("refused,{number},{place}\n").into_bytes(),
    }
}

fn shown(guide: &[u8]) -> Result<Vec<u8>, Refusal> {
    let phrases = Phrases::of_book(b"")?;
    let program = translate::program(guide::read(guide)?, phrases);
    let plate = plate::write(&program)?;
    let mut text = listing::write(&program);
    text.extend_from_slice(format!("plate,{}\n", upper_hex(&plate)).as_bytes());
    Ok(text)
}

pub fn upper_hex(bytes: &[u8]) -> String {
    bytes.iter().map(|byte| format!("{byte:02X}")).collect()
}
