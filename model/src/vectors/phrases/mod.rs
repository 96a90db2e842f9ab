//! The cases of `vectors_phrases`: the check of a book, a text's place among
//! the phrases, a phrase's text, and the width of a place.

mod books;
mod collect;

pub use collect::collect;

use super::stdin;
use crate::phrases::{place_width, List, Phrases};
use crate::show::upper_hex;
use crate::text::LF;

#[derive(Clone, Debug, PartialEq, Eq)]
pub enum Case {
    /// How many phrases a book has, or its first bad line.
    Check { book: Vec<u8> },
    /// Where a text stands in the book, or in the first `count` lines of `own`.
    Find { book: Vec<u8>, own: Vec<u8>, count: u64, text: Vec<u8> },
    /// The text of the phrase at a place of a list.
    Text { book: Vec<u8>, own: Vec<u8>, list: List, place: u64 },
    /// The width of a place among so many phrases.
    Width { count: usize },
}

impl Case {
    /// Adds the case to what the program reads.
    pub fn write(&self, out: &mut Vec<u8>) {
        match self {
            Case::Check { book } => {
                stdin::number(out, 0);
                stdin::slice(out, book);
            }
            Case::Find { book, own, count, text } => {
                stdin::number(out, 1);
                stdin::slice(out, book);
                stdin::slice(out, own);
                stdin::long_number(out, *count);
                stdin::slice(out, text);
            }
            Case::Text { book, own, list, place } => {
                stdin::number(out, 2);
                stdin::slice(out, book);
                stdin::slice(out, own);
                stdin::number(out, *list as usize);
                stdin::long_number(out, *place);
            }
            Case::Width { count } => {
                stdin::number(out, 3);
                stdin::number(out, *count);
            }
        }
    }

    /// The line that the program writes. A lookup in a bad book is answered with
    /// the book's first bad line.
    pub fn answer(&self) -> String {
        let line = match self {
            Case::Check { book } => match Phrases::of_book(book) {
                Ok(phrases) => format!("Y,{}", phrases.list(List::Book).len()),
                Err(refusal) => format!("N,{}", refusal.place),
            },
            Case::Find { book, .. } | Case::Text { book, .. } if bad_line(book).is_some() => {
                format!("N,{}", bad_line(book).unwrap_or_default())
            }
            Case::Find { book, own, count, text } => match find(book, own, *count, text) {
                Some((list, place)) => format!("Y,{},{place}", list as usize),
                None => "N".to_owned(),
            },
            Case::Text { book, own, list, place } => upper_hex(match list {
                List::Book => part(book, LF, *place),
                List::Own => part(part(own, LF, *place), b',', 1),
            }),
            Case::Width { count } => place_width((*count).max(1)).to_string(),
        };
        line + "\n"
    }
}

/// The first bad line of a book.
fn bad_line(book: &[u8]) -> Option<usize> {
    Phrases::of_book(book).err().map(|refusal| refusal.place)
}

/// The part with this number, from 0, between the bytes `by`; empty past the last.
fn part(bytes: &[u8], by: u8, number: u64) -> &[u8] {
    let number = usize::try_from(number).expect("a place of 64 bits");
    bytes.split(|&byte| byte == by).nth(number).unwrap_or_default()
}

/// The lines of a book that end in LF, good or not.
fn texts(book: &[u8]) -> Vec<&[u8]> {
    let lines = book.split_inclusive(|&byte| byte == LF);
    lines.filter_map(|line| line.strip_suffix(&[LF])).collect()
}

/// The first place of a text among the lines of the book, else among the second
/// fields of the first `count` parts of `own`.
pub fn find(book: &[u8], own: &[u8], count: u64, text: &[u8]) -> Option<(List, usize)> {
    let count = usize::try_from(count).expect("a count of 64 bits");
    if let Some(place) = texts(book).into_iter().position(|line| line == text) {
        return Some((List::Book, place));
    }
    let mut own = own.split(|&byte| byte == LF).take(count);
    own.position(|line| part(line, b',', 1) == text).map(|place| (List::Own, place))
}
