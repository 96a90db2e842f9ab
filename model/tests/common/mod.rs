//! Checks that the tests share.
#![allow(dead_code)]

pub mod counts;
pub mod cursor;

use model::calls::{self, Ran};
use model::cases::records::RecordCase;
use model::cases::{Case, Expected, Source};
use model::limits::SCRATCH;
use model::vectors::pattern;
use model::{Record, Refusal};
use std::fmt::Debug;

/// Makes a lent call with buffers of several lengths. `whole` is what the
/// function without buffers gives: the bytes of the result and its values.
pub fn check_lent<V: PartialEq + Debug>(
    whole: &Result<(Vec<u8>, V), Refusal>,
    call: impl Fn(&mut [u8]) -> Result<V, Refusal>,
) {
    let lengths = match whole {
        Ok((bytes, _)) => {
            let length = bytes.len();
            vec![0, length / 2, length.saturating_sub(1), length, length + 1, length + 40]
        }
        Err(_) => vec![0, 1, 50],
    };
    for length in lengths {
        let mut out = pattern(length);
        let result = call(&mut out);
        match whole {
            Ok((bytes, values)) if bytes.len() <= length => {
                assert_eq!(result.as_ref(), Ok(values), "lent {length}");
                assert_eq!(out[..bytes.len()], bytes[..], "lent {length}");
                assert_eq!(out[bytes.len()..], pattern(length)[bytes.len()..], "lent {length}");
            }
            Ok(_) => {
                assert_eq!(result, Err(Refusal { number: 11, place: 0 }), "lent {length}");
                assert_eq!(out, pattern(length), "lent {length}");
            }
            Err(refusal) => {
                assert_eq!(result.as_ref(), Err(refusal), "lent {length}");
                assert_eq!(out, pattern(length), "lent {length}");
            }
        }
    }
}

/// The values that a walk or run returns with lent buffers.
pub fn ran(record: &Record) -> Ran {
    Ran {
        length: record.transcript.len(),
        outcome: record.outcome as u32,
        taken: record.taken,
        steps: record.steps,
        wrong: record.wrong,
    }
}

fn with_length(whole: Result<Vec<u8>, Refusal>) -> Result<(Vec<u8>, usize), Refusal> {
    whole.map(|bytes| {
        let length = bytes.len();
        (bytes, length)
    })
}

fn with_ran(whole: Result<Record, Refusal>) -> Result<(Vec<u8>, Ran), Refusal> {
    whole.map(|record| {
        let ran = ran(&record);
        (record.transcript, ran)
    })
}

/// Makes all the calls that take this input, with lent buffers.
pub fn check_all_lent(source: Source, input: &[u8], book: &[u8], answers: &[i32]) {
    let run = |out: &mut [u8], scratch: usize| {
        calls::run(input, book, answers, &mut vec![7; scratch], out)
    };
    match source {
        Source::Guide => {
            let plate = with_length(model::translate(input, book));
            check_lent(&plate, |out| calls::translate(input, book, out));
            let record = with_ran(model::walk(input, book, answers));
            check_lent(&record, |out| calls::walk(input, book, answers, out));
        }
        Source::Listing => {
            let plate = with_length(model::write_plate(input, book));
            check_lent(&plate, |out| calls::write_plate(input, book, out));
        }
        Source::Plate => {
            let listing = with_length(model::read_plate(input, book));
            check_lent(&listing, |out| calls::read_plate(input, book, out));
            let record = with_ran(model::run(input, book, answers));
            check_lent(&record, |out| run(out, SCRATCH));
            check_lent(&record, |out| run(out, SCRATCH + 1));
            let short = record.and(Err(Refusal { number: 11, place: 0 }));
            check_lent::<Ran>(&short, |out| run(out, SCRATCH - 1));
            check_lent::<Ran>(&short, |out| run(out, 0));
        }
    }
}

/// The results of the calls that take a case's input: of the first one its
/// bytes, and of walk or run whether it is accepted.
fn results(case: &Case) -> (Result<Vec<u8>, Refusal>, Result<(), Refusal>) {
    let (input, book) = (&case.input[..], &case.book[..]);
    match case.source {
        Source::Guide => (model::translate(input, book), model::walk(input, book, &[]).map(|_| ())),
        Source::Listing => {
            let plate = model::write_plate(input, book);
            let accepted = plate.as_ref().map(|_| ()).map_err(|&refusal| refusal);
            (plate, accepted)
        }
        Source::Plate => (model::read_plate(input, book), model::run(input, book, &[]).map(|_| ())),
    }
}

pub fn check(case: &Case) {
    let start = &case.input[..case.input.len().min(300)];
    let what = format!(
        "{:?} of {} bytes: {:?} {start:?}",
        case.source,
        case.input.len(),
        String::from_utf8_lossy(start)
    );
    let (given, accepted) = results(case);
    match &case.expected {
        Expected::Refused(number, place) => {
            let refusal = Refusal { number: *number, place: *place };
            assert_eq!(given, Err(refusal), "{what}");
            assert_eq!(accepted, Err(refusal), "{what}");
        }
        Expected::Accepted => {
            assert!(given.is_ok(), "{given:?} {what}");
            assert_eq!(accepted, Ok(()), "{what}");
        }
        Expected::Gives(bytes) => {
            assert_eq!(given.as_ref(), Ok(bytes), "{what}");
            assert_eq!(accepted, Ok(()), "{what}");
        }
        Expected::OnlyWalked => {
            assert_eq!(given, Err(Refusal { number: 10, place: 0 }), "{what}");
            assert_eq!(accepted, Ok(()), "{what}");
        }
    }
    check_all_lent(case.source, &case.input, &case.book, &[0, 1, -5]);
}

pub fn check_record(case: &RecordCase) {
    let what = String::from_utf8_lossy(&case.input[..case.input.len().min(300)]);
    let what = format!("{what} on {:?}", &case.answers[..case.answers.len().min(20)]);
    let check = |record: Record| {
        let transcript = String::from_utf8_lossy(&record.transcript).into_owned();
        assert_eq!(transcript, String::from_utf8_lossy(&case.transcript), "{what}");
        let ends = (record.outcome as u32, record.taken, record.steps, record.wrong);
        assert_eq!(ends, (case.outcome, case.taken, case.steps, case.wrong), "{what}");
    };
    let (input, book, answers) = (&case.input[..], &case.book[..], &case.answers[..]);
    let plate = match case.source {
        Source::Guide => {
            check(model::walk(input, book, answers).expect("an accepted guide"));
            model::translate(input, book).expect("a guide that fits a plate")
        }
        _ => case.input.clone(),
    };
    check(model::run(&plate, book, answers).expect("an accepted plate"));
    check_all_lent(case.source, input, book, answers);
    check_all_lent(Source::Plate, &plate, book, answers);
}
