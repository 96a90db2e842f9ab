//! The five calls, as the library and the model both offer them.

/// What a call answers. The last four are 0 where the call has no such field.
#[derive(Clone, Copy, Debug, Default, PartialEq, Eq)]
pub struct Answer {
    pub number: u32,
    pub place: u64,
    pub length: u64,
    pub outcome: u32,
    pub taken: u64,
    pub steps: u64,
    pub wrong: u32,
}

impl Answer {
    pub fn is_accepted(&self) -> bool {
        self.number == 0
    }
}

pub trait Calls: Sync {
    fn translate(&self, guide: &[u8], book: &[u8], plate: &mut [u8]) -> Answer;
    fn write_plate(&self, listing: &[u8], book: &[u8], plate: &mut [u8]) -> Answer;
    fn read_plate(&self, plate: &[u8], book: &[u8], listing: &mut [u8]) -> Answer;
    fn walk(&self, guide: &[u8], book: &[u8], answers: &[i32], transcript: &mut [u8]) -> Answer;
    fn run(
        &self,
        plate: &[u8],
        book: &[u8],
        answers: &[i32],
        scratch: &mut [u16],
        transcript: &mut [u8],
    ) -> Answer;
}
