//! The vector programs: one for the five calls, one for the agreement of run and walk, and one each
//! for bits, text, phrases and show.

use super::{bits, collect, phrases, show, stdin, text, Call, Files, Vector};
use crate::refusal::Refusal;
use crate::translate;

#[derive(Clone, Copy, Debug, PartialEq, Eq)]
pub enum Set {
    Call,
    Agree,
    Bits,
    Text,
    Phrases,
    Show,
}

impl Set {
    pub const ALL: [Set; 6] =
        [Set::Call, Set::Agree, Set::Bits, Set::Text, Set::Phrases, Set::Show];

    pub fn of_name(name: &str) -> Option<Set> {
        Set::ALL.into_iter().find(|set| set.name() == name)
    }

    pub fn name(self) -> &'static str {
        match self {
            Set::Call => "call",
            Set::Agree => "agree",
            Set::Bits => "bits",
            Set::Text => "text",
            Set::Phrases => "phrases",
            Set::Show => "show",
        }
    }

    pub fn crate_name(self) -> String {
        format!("vectors_{}", self.name())
    }

    /// What the program reads and has to write.
    pub fn files(self) -> Files {
        match self {
            Set::Call => Files::of(&of_all_calls(), |(call, vector), stdin| {
                stdin::number(stdin, call.number());
                vector.write(*call, stdin);
                vector.answer(*call)
            }),
            Set::Agree => Files::of(&collect(Call::Walk), |vector, stdin| {
                vector.write(Call::Walk, stdin);
                match translate(&vector.input, &vector.book) {
                    Ok(_) => vector.answer(Call::Walk),
                    Err(Refusal { number, place }) => format!("N,{number},{place},\n"),
                }
            }),
            Set::Bits => Files::of(&bits::collect(), |case, stdin| {
                case.write(stdin);
                case.answer()
            }),
            Set::Text => Files::of(&text::collect(), |case, stdin| {
                case.write(stdin);
                case.answer()
            }),
            Set::Phrases => Files::of(&phrases::collect(), |case, stdin| {
                case.write(stdin);
                case.answer()
            }),
            Set::Show => Files::of(&show::collect(), |case, stdin| {
                case.write(stdin);
                case.answer()
            }),
        }
    }
}

/// The cases of the five calls, one call behind the other.
fn of_all_calls() -> Vec<(Call, Vector)> {
    let of_call = |call| collect(call).into_iter().map(move |vector| (call, vector));
    Call::ALL.into_iter().flat_map(of_call).collect()
}
