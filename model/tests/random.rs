//! Walk against translate-and-run, and both round trips, on 100,000 random
//! inputs each, damaged ones among them. The seeds are fixed.

mod common;

use common::counts::Counts;
use common::{check_all_lent, ran};
use model::calls;
use model::cases::Source;
use model::generate;
use model::limits::SCRATCH;
use model::machine::Outcome;
use model::rng::Rng;
use model::vectors::{pattern, Call};
use model::{Record, Refusal};

const INPUTS: usize = 100_000;

/// The walk of a guide is the run of its plate, and they are refused alike.
#[test]
fn walk_is_translate_and_run() {
    let mut rng = Rng::new(1);
    let mut counts = Counts::default();
    for _ in 0..INPUTS {
        let sample = generate::guide(&mut rng);
        let (guide, book) = (&sample.input[..], &sample.book[..]);
        let answers = generate::answers(&mut rng);
        let plate = model::translate(guide, book);
        let walked = model::walk(guide, book, &answers);
        match (&plate, &walked) {
            (Ok(plate), Ok(record)) => {
                assert_eq!(model::run(plate, book, &answers).as_ref(), Ok(record));
                check_record(plate, book, &answers, record);
                check_rooms(&mut rng, guide, plate, book, &answers, record);
                count_guide(&mut counts, guide, book, record);
            }
            (Err(refusal), Ok(_)) => assert_eq!(*refusal, Refusal { number: 10, place: 0 }),
            (plate, walked) => assert_eq!(plate.as_ref().err(), walked.as_ref().err()),
        }
        counts.add_result(Call::Translate, &plate);
        counts.add_result(Call::Walk, &walked);
        let mut out = pattern(rng.below(60));
        counts.add_result(Call::Translate, &calls::translate(guide, book, &mut out));
        counts.add_result(Call::Walk, &calls::walk(guide, book, &answers, &mut out));
        if rng.once_in(50) {
            check_all_lent(Source::Guide, guide, book, &answers);
        }
    }
    counts.print();
    counts.assert_causes_reached(Call::Translate);
    counts.assert_causes_reached(Call::Walk);
    counts.assert_reached(20, &GUIDE_FEATURES);
}

/// Steps are at most the instructions and two for each inputs; a run waits only without
/// answers left; wrong answers are 3 with outcome 3, at most 2 in a wait, else 0.
fn check_record(plate: &[u8], book: &[u8], answers: &[i32], record: &Record) {
    let listing = model::read_plate(plate, book).expect("a plate of the translator");
    let lines = listing.split(|&byte| byte == b'\n').filter(|line| !line.is_empty());
    let lines: Vec<_> = lines.filter(|line| !line.starts_with(b"phrase,")).collect();
    let inputs = lines.iter().filter(|line| line.starts_with(b"inputs,")).count();
    assert!(record.steps <= lines.len() + 2 * inputs);
    assert_eq!(model::write_plate(&listing, book).as_deref(), Ok(plate));
    match record.outcome {
        Outcome::Waiting => assert!(record.taken == answers.len() && record.wrong <= 2),
        Outcome::OutsideOptions => assert!(record.taken < answers.len() && record.wrong == 3),
        Outcome::Verdict | Outcome::End => assert_eq!(record.wrong, 0),
    }
}

/// Walk and run with a transcript buffer of any length.
fn check_rooms(
    rng: &mut Rng,
    guide: &[u8],
    plate: &[u8],
    book: &[u8],
    answers: &[i32],
    record: &Record,
) {
    let length = record.transcript.len();
    let room = *rng.pick(&[length, length + 1, length.saturating_sub(1), length / 2]);
    let mut walked_out = pattern(room);
    let mut run_out = pattern(room);
    let walked = calls::walk(guide, book, answers, &mut walked_out);
    let run = calls::run(plate, book, answers, &mut [0; SCRATCH], &mut run_out);
    let mut expected_out = pattern(room);
    let expected = if room < length {
        Err(Refusal { number: 11, place: 0 })
    } else {
        expected_out[..length].copy_from_slice(&record.transcript);
        Ok(ran(record))
    };
    assert_eq!((walked, &walked_out), (expected, &expected_out));
    assert_eq!((run, &run_out), (expected, &expected_out));
}

const GUIDE_FEATURES: [&str; 25] = [
    "outcome Verdict",
    "outcome End",
    "outcome Waiting",
    "outcome OutsideOptions",
    "waiting after 0 wrong answers",
    "waiting after 1 wrong answers",
    "waiting after 2 wrong answers",
    "a right answer after a wrong one",
    "16 levels",
    "512 instructions",
    "256 phrases in the book",
    "text of 64 bytes",
    "8 options",
    "eq",
    "ne",
    "lt",
    "le",
    "gt",
    "ge",
    "lowest constant",
    "highest constant",
    "letters of 2 bytes",
    "letters of 3 bytes",
    "letters of 4 bytes",
    "letters in the book",
];

/// Counts how a walk or run ended.
fn count_record(counts: &mut Counts, record: &Record) {
    counts.add(&format!("outcome {:?}", record.outcome));
    if record.outcome == Outcome::Waiting {
        counts.add(&format!("waiting after {} wrong answers", record.wrong));
    }
    // A question that is asked again, answered, and followed by another line.
    let lines: Vec<&[u8]> = record.transcript.split(|&byte| byte == b'\n').collect();
    let answered = |four: &&[&[u8]]| {
        four[0].starts_with(b"C,") && four[2] == four[0] && four[3].starts_with(b"A,")
    };
    let right = lines.windows(5).filter(|five| answered(&&five[..4]) && five[4] != five[0]);
    counts.add_if(right.count() > 0, "a right answer after a wrong one");
}

/// Counts what an accepted guide has.
fn count_guide(counts: &mut Counts, guide: &[u8], book: &[u8], record: &Record) {
    count_record(counts, record);
    let mut level = 0;
    let [mut highest, mut instructions] = [0; 2];
    for line in guide.split(|&byte| byte == b'\n').filter(|line| !line.is_empty()) {
        let fields: Vec<&[u8]> = line.split(|&byte| byte == b',').collect();
        instructions += 1;
        match fields[..] {
            [b"if", _, op, constant] => {
                level += 1;
                counts.add(std::str::from_utf8(op).expect("letters"));
                counts.add_if(constant == b"-2147483648", "lowest constant");
                counts.add_if(constant == b"2147483647", "highest constant");
            }
            [b"fi"] => {
                level -= 1;
                instructions -= 1;
            }
            _ => {}
        }
        highest = highest.max(level);
        counts.add_if(fields.len() == 11, "8 options");
        counts.add_if(fields.iter().any(|field| field.len() == 64), "text of 64 bytes");
    }
    let in_book = book.iter().filter(|&&byte| byte == b'\n').count();
    counts.add_if(highest == 16, "16 levels");
    counts.add_if(instructions == 512, "512 instructions");
    counts.add_if(in_book == 256, "256 phrases in the book");
    count_letters(counts, guide);
    counts.add_if(!book.is_ascii(), "letters in the book");
}

/// Counts the lengths of the letters that an accepted guide or listing has.
fn count_letters(counts: &mut Counts, lines: &[u8]) {
    let lines = std::str::from_utf8(lines).expect("letters");
    for (length, what) in
        [(2, "letters of 2 bytes"), (3, "letters of 3 bytes"), (4, "letters of 4 bytes")]
    {
        counts.add_if(lines.chars().any(|letter| letter.len_utf8() == length), what);
    }
}

/// Where an accepted listing has own phrases, how many, and letters beyond ASCII.
const LISTING_FEATURES: [&str; 8] = [
    "no own phrase",
    "1 own phrase",
    "32 own phrases",
    "own phrases and a book",
    "own phrases and letters",
    "letters of 2 bytes",
    "letters of 3 bytes",
    "letters of 4 bytes",
];

fn count_listing(counts: &mut Counts, listing: &[u8], book: &[u8]) {
    let lines = listing.split(|&byte| byte == b'\n');
    let own = lines.take_while(|line| line.starts_with(b"phrase,")).count();
    counts.add_if(own == 0, "no own phrase");
    counts.add_if(own == 1, "1 own phrase");
    counts.add_if(own == 32, "32 own phrases");
    counts.add_if(own > 0 && !book.is_empty(), "own phrases and a book");
    counts.add_if(own > 0 && !listing.is_ascii(), "own phrases and letters");
    count_letters(counts, listing);
}

/// Every accepted listing, written and read back, is the same listing.
#[test]
fn listing_round_trip() {
    let mut rng = Rng::new(2);
    let mut counts = Counts::default();
    for _ in 0..INPUTS {
        let sample = generate::listing(&mut rng);
        let (listing, book) = (&sample.input[..], &sample.book[..]);
        let plate = model::write_plate(listing, book);
        if let Ok(plate) = &plate {
            assert_eq!(model::read_plate(plate, book).as_deref(), Ok(listing));
            count_listing(&mut counts, listing, book);
        }
        counts.add_result(Call::WritePlate, &plate);
        let mut out = pattern(rng.below(60));
        counts.add_result(Call::WritePlate, &calls::write_plate(listing, book, &mut out));
        if rng.once_in(50) {
            check_all_lent(Source::Listing, listing, book, &[]);
        }
    }
    counts.print();
    counts.assert_causes_reached(Call::WritePlate);
    counts.assert_reached(20, &LISTING_FEATURES);
}

/// Every accepted plate, read and written again, is the same plate, and read
/// and run are refused alike.
#[test]
fn plate_round_trip() {
    let mut rng = Rng::new(3);
    let mut counts = Counts::default();
    for _ in 0..INPUTS {
        let sample = generate::plate(&mut rng);
        let (plate, book) = (&sample.input[..], &sample.book[..]);
        let answers = generate::answers(&mut rng);
        let listing = model::read_plate(plate, book);
        let record = model::run(plate, book, &answers);
        assert_eq!(listing.as_ref().err(), record.as_ref().err());
        if let (Ok(listing), Ok(record)) = (&listing, &record) {
            assert_eq!(model::write_plate(listing, book).as_deref(), Ok(plate));
            check_record(plate, book, &answers, record);
            count_listing(&mut counts, listing, book);
        }
        counts.add_result(Call::ReadPlate, &listing);
        counts.add_result(Call::Run, &record);
        let mut out = pattern(rng.below(60));
        counts.add_result(Call::ReadPlate, &calls::read_plate(plate, book, &mut out));
        let ran = calls::run(plate, book, &answers, &mut [0; SCRATCH], &mut out);
        counts.add_result(Call::Run, &ran);
        if rng.once_in(50) {
            check_all_lent(Source::Plate, plate, book, &answers);
        }
    }
    counts.print();
    counts.assert_causes_reached(Call::ReadPlate);
    counts.assert_causes_reached(Call::Run);
    counts.assert_reached(20, &LISTING_FEATURES);
}
