//! More answers than before, on 100,000 random inputs, damaged ones among them. The
//! seed is fixed.

mod common;

use common::counts::Counts;
use model::generate;
use model::machine::Outcome;
use model::rng::Rng;
use model::{Record, Refusal};

const INPUTS: usize = 100_000;

/// More answers only lengthen a record that waits, and change none that ended.
fn check_more(counts: &mut Counts, start: &Record, whole: &Record) {
    if start.outcome == Outcome::Waiting {
        assert!(whole.transcript.starts_with(&start.transcript));
        assert!(whole.steps >= start.steps && whole.taken >= start.taken);
        counts.add_if(whole.steps > start.steps, "a wait that went on");
        counts.add_if(start.wrong > 0 && whole.taken > start.taken, "a wait within the tries");
    } else {
        assert_eq!(start, whole);
        counts.add("an end that stayed");
    }
}

/// For lists A and B: the walk and the run on A, and those on A followed by B.
#[test]
fn more_answers_lengthen_a_wait() {
    let mut rng = Rng::new(5);
    let mut counts = Counts::default();
    for number in 0..INPUTS {
        let [first, second] = [(); 2].map(|()| generate::answers(&mut rng));
        let both = [&first[..], &second].concat();
        let of_guide = number % 2 == 0;
        let record: fn(&[u8], &[u8], &[i32]) -> Result<Record, Refusal> =
            if of_guide { model::walk } else { model::run };
        let sample = if of_guide { generate::guide(&mut rng) } else { generate::plate(&mut rng) };
        let on = |answers: &[i32]| record(&sample.input, &sample.book, answers);
        match (on(&first), on(&both)) {
            (Ok(start), Ok(whole)) => check_more(&mut counts, &start, &whole),
            (start, whole) => assert_eq!(start, whole),
        }
    }
    counts.print();
    counts.assert_reached(
        1_000,
        &["a wait that went on", "a wait within the tries", "an end that stayed"],
    );
}
