//! One case of a vector program.

use super::buffer::{pattern, shown};
use super::{stdin, Call};
use crate::calls::{self, Ran};
use crate::refusal::Refusal;

pub struct Vector {
    /// The length of the lent output.
    pub lent: usize,
    /// The guide, listing or plate.
    pub input: Vec<u8>,
    pub book: Vec<u8>,
    /// For walk and run.
    pub answers: Vec<i32>,
    /// For run: how many numbers of scratch are lent.
    pub scratch: usize,
}

impl Vector {
    /// How many bytes [`Vector::write`] adds.
    pub fn written_length(&self) -> usize {
        16 + self.input.len() + self.book.len() + 4 * self.answers.len()
    }

    /// Adds the case to what the program reads.
    pub fn write(&self, call: Call, out: &mut Vec<u8>) {
        stdin::number(out, self.lent);
        stdin::slice(out, &self.input);
        stdin::slice(out, &self.book);
        if call.takes_answers() {
            stdin::number(out, self.answers.len());
            for answer in &self.answers {
                stdin::signed(out, *answer);
            }
        }
        if call == Call::Run {
            stdin::number(out, self.scratch);
        }
    }

    /// Makes the call on a buffer filled with the pattern.
    pub fn call(&self, call: Call) -> (Result<Values, Refusal>, Vec<u8>) {
        let mut out = pattern(self.lent);
        let (input, book, answers) = (&self.input[..], &self.book[..], &self.answers[..]);
        let values = match call {
            Call::Translate => calls::translate(input, book, &mut out).map(Values::Length),
            Call::WritePlate => calls::write_plate(input, book, &mut out).map(Values::Length),
            Call::ReadPlate => calls::read_plate(input, book, &mut out).map(Values::Length),
            Call::Walk => calls::walk(input, book, answers, &mut out).map(Values::Ran),
            Call::Run => {
                let mut scratch = vec![0; self.scratch];
                calls::run(input, book, answers, &mut scratch, &mut out).map(Values::Ran)
            }
        };
        (values, out)
    }

    /// The line that the program writes.
    pub fn answer(&self, call: Call) -> String {
        let (values, out) = self.call(call);
        let values = match values {
            Ok(Values::Length(length)) => format!("Y,{length}"),
            Ok(Values::Ran(Ran { length, outcome, taken, steps, wrong })) => {
                format!("Y,{length},{outcome},{taken},{steps},{wrong}")
            }
            Err(Refusal { number, place }) => format!("N,{number},{place}"),
        };
        format!("{values},{}\n", shown(&out))
    }
}

/// What an accepted call returns.
#[derive(Clone, Copy, Debug, PartialEq, Eq)]
pub enum Values {
    Length(usize),
    Ran(Ran),
}

impl Values {
    pub fn length(&self) -> usize {
        match self {
            Values::Length(length) => *length,
            Values::Ran(ran) => ran.length,
        }
    }
}
