//! Libraries with one fault each: the run of many cases finds every one of them.

use harness::calls::{Answer, Calls};
use harness::fuzz::{all, differs, try_case};
use harness::generate;
use harness::reference::Model;
use model::vectors::Call;

#[derive(Clone, Copy, Debug, PartialEq)]
enum Fault {
    None,
    /// Every refusal is placed one further.
    Place,
    /// A refusal names the next cause.
    Number,
    /// A refusal has a length.
    LengthOfRefusal,
    /// An accepted call has a place.
    PlaceOfAccepted,
    /// The length is one less.
    Length,
    /// The third wrong answer is said to be a wait.
    Outcome,
    /// One answer more was taken.
    Taken,
    /// One step more was made.
    Steps,
    /// A wait says that no answer was wrong.
    Wrong,
    /// The third wrong answer was taken.
    ThirdTaken,
    /// The byte behind the result is 0.
    Tail,
    /// The first byte is changed although the call refuses.
    Refused,
    /// The last byte of the result is wrong.
    LastByte,
    /// The scratch is used.
    Scratch,
}

struct Wrong(Fault);

impl Wrong {
    fn spoil(&self, mut answer: Answer, output: &mut [u8]) -> Answer {
        let length = answer.length as usize;
        let accepted = answer.is_accepted();
        match self.0 {
            Fault::Place if !accepted => answer.place += 1,
            Fault::Number if !accepted => answer.number += 1,
            Fault::LengthOfRefusal if !accepted => answer.length = 1,
            Fault::PlaceOfAccepted if accepted => answer.place = 1,
            Fault::Length if accepted => answer.length = answer.length.saturating_sub(1),
            Fault::Outcome if answer.outcome == 3 => answer.outcome = 2,
            Fault::Taken if accepted => answer.taken += 1,
            Fault::Steps if accepted => answer.steps += 1,
            Fault::Wrong if answer.outcome == 2 => answer.wrong = 0,
            Fault::ThirdTaken if answer.outcome == 3 => answer.taken += 1,
            Fault::Tail if accepted && length < output.len() => output[length] = 0,
            Fault::Refused if !accepted && !output.is_empty() => output[0] ^= 1,
            Fault::LastByte if accepted && length > 0 => output[length - 1] ^= 1,
            _ => {}
        }
        answer
    }
}

impl Calls for Wrong {
    fn translate(&self, guide: &[u8], book: &[u8], plate: &mut [u8]) -> Answer {
        Model.translate(guide, book, plate)
    }

    fn write_plate(&self, listing: &[u8], book: &[u8], plate: &mut [u8]) -> Answer {
        self.spoil(Model.write_plate(listing, book, plate), plate)
    }

    fn read_plate(&self, plate: &[u8], book: &[u8], listing: &mut [u8]) -> Answer {
        self.spoil(Model.read_plate(plate, book, listing), listing)
    }

    fn walk(&self, guide: &[u8], book: &[u8], answers: &[i32], transcript: &mut [u8]) -> Answer {
        Model.walk(guide, book, answers, transcript)
    }

    fn run(
        &self,
        plate: &[u8],
        book: &[u8],
        answers: &[i32],
        scratch: &mut [u16],
        transcript: &mut [u8],
    ) -> Answer {
        let answer = Model.run(plate, book, answers, scratch, transcript);
        if let (Fault::Scratch, Some(first)) = (self.0, scratch.first_mut()) {
            *first ^= 1;
        }
        self.spoil(answer, transcript)
    }
}

const FAULTS: [Fault; 14] = [
    Fault::Place,
    Fault::Number,
    Fault::LengthOfRefusal,
    Fault::PlaceOfAccepted,
    Fault::Length,
    Fault::Outcome,
    Fault::Taken,
    Fault::Steps,
    Fault::Wrong,
    Fault::ThirdTaken,
    Fault::Tail,
    Fault::Refused,
    Fault::LastByte,
    Fault::Scratch,
];

#[test]
fn every_fault_is_found() {
    for fault in FAULTS {
        let report = all(&Wrong(fault), 5, 3_000, 1);
        assert!(report.differing > 0, "{fault:?}");
        let (number, text) = report.first.expect("the first one");
        assert!(text.contains(&format!("fuzz --case 5 {number}")), "{text}");
    }
}

#[test]
fn no_fault_is_found_where_there_is_none() {
    let report = all(&Wrong(Fault::None), 5, 3_000, 1);
    assert_eq!((report.differing, report.first), (0, None));
    assert!(report.agreements > 200);
}

/// Walk and translate are right, and the run of the plate is not the walk.
#[test]
fn disagreement_is_found() {
    let faults =
        [Fault::Taken, Fault::Steps, Fault::Wrong, Fault::Tail, Fault::LastByte, Fault::Scratch];
    for fault in faults {
        let walks = (0..3_000).map(|number| generate::case(6, number));
        let mut found = 0;
        for case in walks.filter(|case| case.call == Call::Walk) {
            let tried = try_case(&Wrong(fault), &case);
            assert!(tried.differences.is_empty());
            found += usize::from(differs(&tried));
        }
        assert!(found > 0, "{fault:?}");
    }
}

/// Two threads meet what one meets.
#[test]
fn threads_meet_the_same() {
    let [one, two] = [1, 2].map(|threads| all(&Wrong(Fault::Steps), 7, 2_000, threads));
    assert_eq!(one.to_string(), two.to_string());
    assert_eq!(one.first, two.first);
}
