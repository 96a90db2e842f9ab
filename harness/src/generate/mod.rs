//! The cases of a seed: an input, a book, answers, and what is lent.

mod answers;
mod damage;
mod lent;
mod limits;
mod lines;
mod plain;
mod stored;

use crate::perform::Case;
use model::cases::Source;
use model::generate::{self, Sample};
use model::rng::Rng;
use model::vectors::Call;

/// One case in so many is made of an input at a limit.
const LIMITS_ONCE_IN: usize = 50;

/// The case of this number. It hangs on nothing but the seed and the number.
pub fn case(seed: u64, number: u64) -> Case {
    let mut rng = Rng::new(Rng::new(seed).next_u64() ^ number.wrapping_mul(0xD134_2543_DE82_EF95));
    let mut rng = Rng::new(rng.next_u64());
    let call = *rng.pick(&Call::ALL);
    let Sample { input, book } = sample(&mut rng, call.source());
    let answers = match call.takes_answers() {
        true => answers::answers(&mut rng),
        false => Vec::new(),
    };
    let length = lent::result_length(call, &input, &book, &answers);
    let room = lent::room(&mut rng, length);
    let scratch = lent::scratch(&mut rng, call);
    Case { call, input, book, answers, room, scratch, fill: rng.next_u64() }
}

fn sample(rng: &mut Rng, source: Source) -> Sample {
    if rng.once_in(LIMITS_ONCE_IN) {
        let mut sample = limits::sample(rng, source);
        if rng.once_in(4) {
            damage::input(rng, source, &mut sample.input);
        }
        return sample;
    }
    let mut sample = match rng.below(40) {
        0 => plain::sample(rng),
        1 => of_any_source(rng),
        2 => stored::short(rng, source),
        _ => of_model(rng, source),
    };
    if rng.once_in(8) {
        damage::input(rng, source, &mut sample.input);
    }
    if rng.once_in(40) {
        damage::book(rng, &mut sample.book);
    }
    sample
}

/// At times an input of another source.
fn of_any_source(rng: &mut Rng) -> Sample {
    let source = *rng.pick(&[Source::Guide, Source::Listing, Source::Plate]);
    of_model(rng, source)
}

fn of_model(rng: &mut Rng, source: Source) -> Sample {
    match source {
        Source::Guide => generate::guide(rng),
        Source::Listing => generate::listing(rng),
        Source::Plate => generate::plate(rng),
    }
}
