//! The phrases: those of the lent book and a listing's or plate's own.

use crate::limits::{MAX_BOOK, MAX_OWN};
use crate::refusal::{cause, refuse, Refusal};
use crate::text::{self, LF};
use std::collections::hash_map::{Entry, HashMap};

/// The two lists of phrases, by the bit that names them on a plate.
#[derive(Clone, Copy, Debug, PartialEq, Eq)]
pub enum List {
    Book = 0,
    Own = 1,
}

/// Where a phrase stands: its list and its index there, from 0.
#[derive(Clone, Copy, Debug, PartialEq, Eq)]
pub struct Place {
    pub list: List,
    pub index: usize,
}

/// Every phrase is a part of the lent texts, and all are different.
pub struct Phrases<'a> {
    book: Vec<&'a [u8]>,
    own: Vec<&'a [u8]>,
    places: HashMap<&'a [u8], Place>,
}

impl<'a> Phrases<'a> {
    /// Reads the book; its first bad line is refused with 1.
    pub fn of_book(book: &'a [u8]) -> Result<Self, Refusal> {
        let mut phrases = Phrases { book: Vec::new(), own: Vec::new(), places: HashMap::new() };
        for line in book.split_inclusive(|&byte| byte == LF) {
            let number = phrases.book.len() + 1;
            match line.strip_suffix(&[LF]) {
                Some(text) if phrases.add_to_book(text) => {}
                _ => return refuse(cause::BOOK, number),
            }
        }
        Ok(phrases)
    }

    /// Adds an own phrase, or says no where it is repeated or the 33rd.
    pub fn add_own(&mut self, text: &'a [u8]) -> bool {
        self.own.len() < MAX_OWN && self.add(List::Own, text)
    }

    fn add_to_book(&mut self, text: &'a [u8]) -> bool {
        self.book.len() < MAX_BOOK && text::is_text(text) && self.add(List::Book, text)
    }

    /// Adds a phrase to a list, unless it is in one already.
    fn add(&mut self, list: List, text: &'a [u8]) -> bool {
        let Entry::Vacant(entry) = self.places.entry(text) else {
            return false;
        };
        let texts = match list {
            List::Book => &mut self.book,
            List::Own => &mut self.own,
        };
        entry.insert(Place { list, index: texts.len() });
        texts.push(text);
        true
    }

    pub fn list(&self, list: List) -> &[&'a [u8]] {
        match list {
            List::Book => &self.book,
            List::Own => &self.own,
        }
    }

    pub fn own(&self) -> &[&'a [u8]] {
        &self.own
    }

    pub fn find(&self, text: &[u8]) -> Option<Place> {
        self.places.get(text).copied()
    }

    /// The only list that has phrases, or None if both have some or neither.
    pub fn only_list(&self) -> Option<List> {
        match (self.book.is_empty(), self.own.is_empty()) {
            (false, true) => Some(List::Book),
            (true, false) => Some(List::Own),
            _ => None,
        }
    }

    pub fn is_empty(&self) -> bool {
        self.places.is_empty()
    }
}

/// The fewest bits that number `count` phrases from 0; `count` is not 0.
pub fn place_width(count: usize) -> u32 {
    usize::BITS - (count - 1).leading_zeros()
}
