//! The five calls, as the vectors name them.

use crate::cases::Source;

#[derive(Clone, Copy, Debug, PartialEq, Eq)]
pub enum Call {
    Translate,
    WritePlate,
    ReadPlate,
    Walk,
    Run,
}

impl Call {
    pub const ALL: [Call; 5] =
        [Call::Translate, Call::WritePlate, Call::ReadPlate, Call::Walk, Call::Run];

    /// The number that a case of the call begins with: the call's place in [`Call::ALL`].
    pub fn number(self) -> usize {
        self as usize
    }

    pub fn name(self) -> &'static str {
        match self {
            Call::Translate => "translate",
            Call::WritePlate => "write_plate",
            Call::ReadPlate => "read_plate",
            Call::Walk => "walk",
            Call::Run => "run",
        }
    }

    /// What the call takes first.
    pub fn source(self) -> Source {
        match self {
            Call::Translate | Call::Walk => Source::Guide,
            Call::WritePlate => Source::Listing,
            Call::ReadPlate | Call::Run => Source::Plate,
        }
    }

    pub fn takes_answers(self) -> bool {
        matches!(self, Call::Walk | Call::Run)
    }

    /// The causes that the call can give.
    pub fn causes(self) -> &'static [u32] {
        match self {
            Call::Translate => &[1, 2, 3, 4, 5, 6, 7, 9, 10, 11],
            Call::WritePlate => &[1, 2, 3, 4, 5, 6, 8, 9, 10, 11],
            Call::ReadPlate | Call::Run => &[1, 8, 10, 11, 12, 13, 14, 15],
            Call::Walk => &[1, 2, 3, 4, 5, 6, 7, 9, 11],
        }
    }
}
