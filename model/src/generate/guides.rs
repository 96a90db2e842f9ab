//! Random guides, accepted but for a few limits and, at times, phrase lines.

use super::words::{action, constant, op, register, size, Words};
use crate::rng::Rng;

struct Writer<'r> {
    rng: &'r mut Rng,
    words: &'r Words,
    out: Vec<u8>,
    /// How many instructions may still be written.
    left: usize,
    /// Out of 16, how often a statement is an if.
    if_share: usize,
    /// Whether the first statement of a block is an if, down to level 16.
    deep: bool,
}

pub fn guide(rng: &mut Rng, words: &Words) -> Vec<u8> {
    let out = if rng.once_in(40) { words.phrase_lines(rng) } else { Vec::new() };
    let left = size(rng);
    let if_share = *rng.pick(&[0, 2, 5, 8]);
    let deep = rng.once_in(12);
    let mut writer = Writer { rng, words, out, left, if_share, deep };
    while writer.left > 0 {
        writer.statement(0, writer.deep);
    }
    writer.out
}

impl Writer<'_> {
    fn line(&mut self, line: &[u8]) {
        self.out.extend_from_slice(line);
        self.out.push(b'\n');
    }

    fn block(&mut self, level: usize) {
        let statements = self.rng.below(5) + usize::from(self.deep);
        for place in 0..statements {
            if self.left == 0 {
                return;
            }
            self.statement(level, self.deep && place == 0);
        }
    }

    fn statement(&mut self, level: usize, must_be_if: bool) {
        self.left -= 1;
        if level < 16 && (must_be_if || self.rng.below(16) < self.if_share) {
            self.branch(level);
        } else {
            let line = action(self.rng, self.words);
            self.line(&line);
        }
    }

    fn branch(&mut self, level: usize) {
        let test = (register(self.rng), op(self.rng), constant(self.rng));
        self.line(format!("if,{},{},{}", test.0, test.1, test.2).as_bytes());
        self.block(level + 1);
        if self.left > 0 && self.rng.once_in(2) {
            self.left -= 1;
            self.line(b"else");
            self.block(level + 1);
        }
        self.line(b"fi");
    }
}
