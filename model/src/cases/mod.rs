//! Inputs at the limits, each with the result that documents 01 and 02 give it,
//! worked out by hand. The tests and the vectors use the same inputs.

pub mod books;
pub mod cuts;
pub mod guides;
pub mod lettered;
pub mod lettered_books;
pub mod letters;
pub mod listings;
pub mod notation;
pub mod order;
pub mod plates;
pub mod records;
pub mod shared;
pub mod sizes;
pub mod steps;
pub mod texts;
pub mod tries;
pub mod utf8;
pub mod widths;

/// What an input is, and so which calls take it.
#[derive(Clone, Copy, Debug, PartialEq, Eq)]
pub enum Source {
    /// Translate and walk.
    Guide,
    /// Write a plate.
    Listing,
    /// Read a plate and run.
    Plate,
}

#[derive(Clone, Debug)]
pub struct Case {
    pub source: Source,
    pub input: Vec<u8>,
    pub book: Vec<u8>,
    pub expected: Expected,
}

#[derive(Clone, Debug, PartialEq, Eq)]
pub enum Expected {
    /// Number and place.
    Refused(u32, usize),
    Accepted,
    /// The plate of a guide or listing, or the listing of a plate.
    Gives(Vec<u8>),
    /// A guide that is walked, but whose plate is over 2,953 bytes.
    OnlyWalked,
}

pub use Expected::{Accepted, Gives, OnlyWalked, Refused};

/// A guide or listing, and what it gives.
pub fn case(source: Source, input: impl AsRef<[u8]>, book: &[u8], expected: Expected) -> Case {
    Case { source, input: input.as_ref().to_vec(), book: book.to_vec(), expected }
}

/// The same text as a guide and as a listing.
pub fn guide_and_listing(input: impl AsRef<[u8]>, book: &[u8], expected: Expected) -> Vec<Case> {
    [Source::Guide, Source::Listing]
        .map(|source| case(source, &input, book, expected.clone()))
        .to_vec()
}

/// A text whose first line is an own phrase: a listing, and a guide that 6 refuses there.
pub fn with_own_phrases(input: &str, book: &[u8], expected: Expected) -> Vec<Case> {
    let guide = case(Source::Guide, input, book, Refused(6, 1));
    vec![guide, case(Source::Listing, input, book, expected)]
}

/// The expectation that a guide or listing gives a plate in [`notation`].
pub fn gives_plate(notation: &str) -> Expected {
    Gives(notation::plate(notation).bytes())
}

/// A plate in [`notation`] that is read as a listing.
pub fn read_as(notation: &str, book: &[u8], listing: impl AsRef<[u8]>) -> Case {
    Case {
        source: Source::Plate,
        input: notation::plate(notation).bytes(),
        book: book.to_vec(),
        expected: Gives(listing.as_ref().to_vec()),
    }
}

/// A plate in [`notation`] that is refused at the bit where `^` stands.
pub fn refused_at_mark(number: u32, notation: &str, book: &[u8]) -> Case {
    let plate = notation::plate(notation);
    Case {
        source: Source::Plate,
        input: plate.bytes(),
        book: book.to_vec(),
        expected: Refused(number, plate.mark.expect("a mark in the notation")),
    }
}

/// Bytes next to a limit of what a text or line may hold.
pub const NEAR_LIMITS: [u8; 12] = [0, 9, 13, 31, 32, 43, 44, 45, 126, 127, 128, 255];

/// A text of this length.
pub fn text(length: usize) -> String {
    "x".repeat(length)
}

/// Different texts of two letters, for places from 0 to 675.
pub fn word(place: usize) -> String {
    let letter = |place: usize| char::from(b'a' + place as u8);
    String::from_iter([letter(place / 26), letter(place % 26)])
}

/// A book of this many words.
pub fn book_of(count: usize) -> Vec<u8> {
    lines(count, word).into_bytes()
}

/// Lines made one by one, each ended by LF.
pub fn lines(count: usize, line: impl Fn(usize) -> String) -> String {
    (0..count).map(|place| line(place) + "\n").collect()
}

/// A named group of cases.
pub type Group = (&'static str, fn() -> Vec<Case>);

/// All groups, one test each.
pub const GROUPS: &[&[Group]] = &[
    books::GROUPS,
    texts::GROUPS,
    shared::GROUPS,
    guides::GROUPS,
    listings::GROUPS,
    widths::GROUPS,
    sizes::GROUPS,
    order::GROUPS,
    plates::GROUPS,
    cuts::GROUPS,
    letters::GROUPS,
    lettered_books::GROUPS,
    lettered::GROUPS,
];
