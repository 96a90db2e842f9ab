//! The inputs of the model's hand-made cases. Only the inputs are used here.

use model::cases::{self, Source};
use model::generate::Sample;
use model::rng::Rng;
use std::sync::OnceLock;

/// Input and book of each case, by source; the short ones first.
struct Stored {
    samples: Vec<(Vec<u8>, Vec<u8>)>,
    short: usize,
}

/// Input and book together have fewer bytes than this in a short case.
const SHORT: usize = 400;

fn stored(source: Source) -> &'static Stored {
    static ALL: OnceLock<[Stored; 3]> = OnceLock::new();
    let all = ALL.get_or_init(|| [Source::Guide, Source::Listing, Source::Plate].map(collect));
    match source {
        Source::Guide => &all[0],
        Source::Listing => &all[1],
        Source::Plate => &all[2],
    }
}

fn collect(source: Source) -> Stored {
    let mut samples = Vec::new();
    for (_, group) in cases::GROUPS.iter().copied().flatten() {
        let of_source = group().into_iter().filter(|case| case.source == source);
        samples.extend(of_source.map(|case| (case.input, case.book)));
    }
    for (_, group) in cases::records::GROUPS {
        let of_source = group().into_iter().filter(|case| case.source == source);
        samples.extend(of_source.map(|case| (case.input, case.book)));
    }
    samples.sort_by_key(|(input, book)| input.len() + book.len() >= SHORT);
    let short = samples.partition_point(|(input, book)| input.len() + book.len() < SHORT);
    Stored { samples, short }
}

/// One of the short ones.
pub fn short(rng: &mut Rng, source: Source) -> Sample {
    let stored = stored(source);
    of(rng.pick(&stored.samples[..stored.short]))
}

/// One of the long ones.
pub fn long(rng: &mut Rng, source: Source) -> Sample {
    let stored = stored(source);
    of(rng.pick(&stored.samples[stored.short..]))
}

fn of((input, book): &(Vec<u8>, Vec<u8>)) -> Sample {
    Sample { input: input.clone(), book: book.clone() }
}
