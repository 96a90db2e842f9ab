//! A reader of what a vector program gets, as README.md describes it.

use model::vectors::Set;

pub struct Cursor<'a> {
    rest: &'a [u8],
}

impl<'a> Cursor<'a> {
    pub fn new(rest: &'a [u8]) -> Self {
        Cursor { rest }
    }

    pub fn is_at_end(&self) -> bool {
        self.rest.is_empty()
    }

    fn bytes<const N: usize>(&mut self) -> [u8; N] {
        let (bytes, rest) = self.rest.split_at(N);
        self.rest = rest;
        bytes.try_into().expect("as many bytes")
    }

    pub fn number(&mut self) -> usize {
        u32::from_le_bytes(self.bytes()) as usize
    }

    pub fn long_number(&mut self) -> u64 {
        u64::from_le_bytes(self.bytes())
    }

    pub fn signed(&mut self) -> i32 {
        i32::from_le_bytes(self.bytes())
    }

    pub fn slice(&mut self) -> Vec<u8> {
        let length = self.number();
        let (bytes, rest) = self.rest.split_at(length);
        self.rest = rest;
        bytes.to_vec()
    }
}

/// At least 2,000 cases of a program for a leaf, which read back from its stdin
/// give its stdout, and the sizes that README.md states.
pub fn check_files(set: Set, answer: impl Fn(&mut Cursor) -> String) {
    let files = set.files();
    let mut cursor = Cursor::new(&files.stdin);
    let mut stdout = String::new();
    while !cursor.is_at_end() {
        stdout += &answer(&mut cursor);
    }
    assert!(stdout.lines().count() >= 2_000);
    assert!(stdout.as_bytes() == files.stdout);
    assert!(files.stdin.len() < 300_000 && files.stdout.len() < 200_000);
}
