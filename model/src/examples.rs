//! The guides of the folder `examples` at the top of the repository, and their books.

/// A guide's name, its text and the book that its runs are lent.
pub struct Example {
    pub name: &'static str,
    pub guide: &'static [u8],
    pub book: &'static [u8],
}

macro_rules! guide {
    ($name:literal) => {
        guide!($name, "relay")
    };
    ($name:literal, $book:literal) => {
        Example {
            name: $name,
            guide: include_bytes!(concat!("../../examples/", $name, ".guide")),
            book: include_bytes!(concat!("../../examples/", $book, ".book")),
        }
    };
}

/// A guide with a book of its own has it under its own name.
pub const GUIDES: [Example; 8] = [
    guide!("breaker-open"),
    guide!("ct-open"),
    guide!("error-codes"),
    guide!("incident"),
    guide!("reclose-lockout"),
    guide!("sf6-low"),
    guide!("town-names", "town-names"),
    guide!("trip-coil"),
];
