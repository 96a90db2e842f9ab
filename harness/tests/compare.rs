//! The comparison reports every change of an answer or of the lent memory.

use harness::compare::{differences, Difference};
use harness::perform::{perform, Case, Seen, MARGIN};
use harness::reference::Model;
use model::limits::SCRATCH;
use model::vectors::Call;

/// A run that is accepted, with a longer buffer than it needs.
fn case() -> Case {
    let plate = model::translate(b"input,0,Volts\nprint,OK\n", b"OK\n").expect("a plate");
    let book = b"OK\n".to_vec();
    Case {
        call: Call::Run,
        input: plate,
        book,
        answers: vec![-7],
        room: 40,
        scratch: SCRATCH,
        fill: 99,
    }
}

fn seen() -> Seen {
    let seen = perform(&Model, &case());
    let result = &seen.buffer[MARGIN..][..18];
    assert_eq!((seen.answer.number, result), (0, &b"Q,Volts\nA,-7\nS,OK\n"[..]));
    seen
}

/// What differs after a change.
fn after(change: impl Fn(&mut Seen)) -> Vec<String> {
    let expected = seen();
    let mut found = expected.clone();
    change(&mut found);
    differences(&expected, &found).into_iter().map(|difference| difference.what).collect()
}

#[test]
fn nothing_differs_without_a_change() {
    assert_eq!(after(|_| ()), Vec::<String>::new());
}

#[test]
fn every_field_counts() {
    assert_eq!(after(|seen| seen.answer.number += 1), ["number"]);
    assert_eq!(after(|seen| seen.answer.place += 1), ["place"]);
    assert_eq!(after(|seen| seen.answer.length -= 1), ["length"]);
    assert_eq!(after(|seen| seen.answer.outcome = 0), ["outcome"]);
    assert_eq!(after(|seen| seen.answer.taken = 0), ["taken"]);
    assert_eq!(after(|seen| seen.answer.steps = 1 << 40), ["steps"]);
    assert_eq!(after(|seen| seen.answer.wrong = 1), ["wrong"]);
    let two = after(|seen| (seen.answer.number, seen.answer.place) = (11, 1));
    assert_eq!(two, ["number", "place"]);
}

/// Each byte: the margin in front, the result, the tail behind it, and the margin behind.
#[test]
fn every_byte_counts() {
    for at in 0..seen().buffer.len() {
        let place = at as i64 - MARGIN as i64;
        let what = format!("buffer at {place}, the first of 1");
        assert_eq!(after(|seen| seen.buffer[at] ^= 1), [what]);
    }
}

#[test]
fn every_number_of_scratch_counts() {
    for at in 0..seen().scratch.len() {
        let place = at as i64 - MARGIN as i64;
        let what = format!("scratch at {place}, the first of 1");
        assert_eq!(after(|seen| seen.scratch[at] ^= 0x8000), [what]);
    }
}

#[test]
fn lengths_count() {
    assert_eq!(after(|seen| seen.buffer.truncate(5)), ["buffer, its length"]);
    assert_eq!(after(|seen| seen.scratch.push(0)), ["scratch, its length"]);
}

/// Both values are told.
#[test]
fn values_are_told() {
    let mut found = seen();
    found.answer.steps = 77;
    let [expected, wrong] = ["2", "77"].map(str::to_owned);
    let told = Difference { what: "steps".to_owned(), expected, found: wrong };
    assert_eq!(differences(&seen(), &found), [told]);
}
