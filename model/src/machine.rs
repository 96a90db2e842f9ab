//! The state that the walk and the run share: registers, answers, transcript.

use crate::action::{Action, Test};
use crate::limits::{REGISTERS, TRIES};
use crate::number;
use crate::text::LF;

#[derive(Clone, Copy, Debug, PartialEq, Eq)]
pub enum Outcome {
    Verdict = 0,
    /// The end, without a verdict.
    End = 1,
    /// No answer left.
    Waiting = 2,
    /// The third answer outside the options of one question.
    OutsideOptions = 3,
}

/// What a walk or run gives.
#[derive(Clone, Debug, PartialEq, Eq)]
pub struct Record {
    pub transcript: Vec<u8>,
    pub outcome: Outcome,
    pub taken: usize,
    pub steps: usize,
    /// The wrong answers so far in the question that it waits at or ended at; 0 after
    /// a verdict and at the end.
    pub wrong: u32,
}

pub struct Machine<'a> {
    registers: [i32; REGISTERS],
    answers: &'a [i32],
    taken: usize,
    pub steps: usize,
    /// Answers outside the options in the present question; 0 outside of one.
    wrong: u32,
    transcript: Vec<u8>,
}

impl<'a> Machine<'a> {
    pub fn new(answers: &'a [i32]) -> Self {
        let (registers, transcript) = ([0; REGISTERS], Vec::new());
        Machine { registers, answers, taken: 0, steps: 0, wrong: 0, transcript }
    }

    pub fn finish(self, outcome: Outcome) -> Record {
        let Machine { taken, steps, wrong, transcript, .. } = self;
        Record { transcript, outcome, taken, steps, wrong }
    }

    pub fn holds(&self, test: &Test) -> bool {
        let value = self.registers[usize::from(test.register)];
        test.op.holds(value, test.constant)
    }

    /// Does an action, and says how all ends if it ends here. Its first step is
    /// counted by the caller.
    pub fn act(&mut self, action: &Action) -> Option<Outcome> {
        match action {
            Action::Input { register, text } => {
                self.line(b'Q', text, &[]);
                let Some(answer) = self.next_answer() else {
                    return Some(Outcome::Waiting);
                };
                self.take(answer);
                self.registers[usize::from(*register)] = answer;
                None
            }
            Action::Inputs { register, text, options } => self.choose(*register, text, options),
            Action::Print { text } => {
                self.line(b'S', text, &[]);
                None
            }
            Action::Printex { text } => {
                self.line(b'V', text, &[]);
                Some(Outcome::Verdict)
            }
        }
    }

    /// Asks for an option. A wrong answer is taken and the question comes again, which
    /// is a step more; the third wrong one is not taken.
    fn choose(&mut self, register: u8, text: &[u8], options: &[&[u8]]) -> Option<Outcome> {
        loop {
            self.line(b'C', text, options);
            let Some(answer) = self.next_answer() else {
                return Some(Outcome::Waiting);
            };
            if usize::try_from(answer).is_ok_and(|place| place < options.len()) {
                self.take(answer);
                self.registers[usize::from(register)] = answer;
                self.wrong = 0;
                return None;
            }
            self.wrong += 1;
            if self.wrong == TRIES {
                return Some(Outcome::OutsideOptions);
            }
            self.take(answer);
            self.steps += 1;
        }
    }

    fn next_answer(&self) -> Option<i32> {
        self.answers.get(self.taken).copied()
    }

    /// Takes an answer from the list, and writes its line.
    fn take(&mut self, answer: i32) {
        self.taken += 1;
        self.transcript.extend_from_slice(b"A,");
        number::write(&mut self.transcript, answer);
        self.transcript.push(LF);
    }

    fn line(&mut self, letter: u8, text: &[u8], options: &[&[u8]]) {
        self.transcript.push(letter);
        self.transcript.push(b',');
        self.transcript.extend_from_slice(text);
        for option in options {
            self.transcript.push(b',');
            self.transcript.extend_from_slice(option);
        }
        self.transcript.push(LF);
    }
}
