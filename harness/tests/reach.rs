//! The cases of a seed reach every cause of every call and every limit; the library is right on some.

use harness::calls::Answer;
use harness::fuzz::all;
use harness::generate;
use harness::library::Library;
use harness::perform::{perform, Case};
use harness::reference::Model;
use model::limits::SCRATCH;
use model::refusal::cause::OWN_PHRASE;
use model::vectors::Call;
use std::collections::BTreeMap;

/// Every cause of every call, all outcomes, waits after 0, 1 and 2 wrong answers, and acceptance; no difference from the
/// model.
#[test]
fn every_cause_is_reached() {
    let report = all(&Library, 11, 40_000, 1);
    assert_eq!(report.first, None);
    for call in Call::ALL {
        assert!(report.count(call, 0) > 2_000, "{}", call.name());
        for &number in call.causes() {
            assert!(report.count(call, number) > 0, "{} cause {number}", call.name());
        }
    }
    assert!((0..=2).all(|wrong| report.waits(wrong) > 50));
    assert!(report.agreements > 2_000);
}

/// How often each limit, and one past it, is met by accepted and refused cases.
#[derive(Default)]
struct Met(BTreeMap<(&'static str, usize), u64>);

impl Met {
    fn add(&mut self, what: &'static str, size: usize) {
        *self.0.entry((what, size)).or_default() += 1;
    }

    fn case(&mut self, case: &Case) {
        let answer = perform(&Model, case).answer;
        let accepted = answer.is_accepted();
        let lines = |bytes: &[u8]| bytes.iter().filter(|&&byte| byte == b'\n').count();
        self.add("book", lines(&case.book));
        self.letters(case, accepted);
        match case.call {
            Call::Translate | Call::Walk => self.guide(case, &answer),
            Call::WritePlate => self.listing(case, accepted),
            Call::ReadPlate | Call::Run if accepted => self.add("plate", case.input.len()),
            Call::ReadPlate | Call::Run => self.add("refused plate", case.input.len()),
        }
        if case.call == Call::Run {
            self.add("scratch", case.scratch);
        }
    }

    /// Letters beyond ASCII: in an accepted input and book by their bytes, ill formed in one that is refused.
    fn letters(&mut self, case: &Case, accepted: bool) {
        let plate = matches!(case.call, Call::ReadPlate | Call::Run);
        for (what, bytes) in [("input letters", &case.input), ("book letters", &case.book)] {
            match std::str::from_utf8(bytes) {
                Ok(text) if accepted && (!plate || what == "book letters") => {
                    text.chars().for_each(|letter| self.add(what, letter.len_utf8()));
                }
                Err(_) if !accepted && !plate => self.add(what, 0),
                _ => {}
            }
        }
        if plate && accepted {
            let listing = model::read_plate(&case.input, &case.book).expect("an accepted plate");
            self.add("plate letters", usize::from(!listing.is_ascii()));
        }
    }

    fn listing(&mut self, case: &Case, accepted: bool) {
        self.add("listing", case.input.len());
        let lines = case.input.split(|&byte| byte == b'\n');
        let own = lines.filter(|line| line.starts_with(b"phrase,")).count();
        self.add(if accepted { "own" } else { "refused own" }, own);
    }

    fn guide(&mut self, case: &Case, answer: &Answer) {
        let accepted = answer.is_accepted();
        self.add(if accepted { "guide" } else { "refused guide" }, case.input.len());
        if answer.number == OWN_PHRASE {
            self.add("phrase line", answer.place as usize);
        }
        let [mut level, mut deepest, mut instructions] = [0; 3];
        for line in case.input.split(|&byte| byte == b'\n') {
            level += usize::from(line.starts_with(b"if,"));
            deepest = deepest.max(level);
            level = level.saturating_sub(usize::from(line == b"fi"));
            let counts = [&b"if,"[..], b"else", b"print", b"input"];
            instructions += usize::from(counts.iter().any(|kind| line.starts_with(kind)));
            let longest = line.split(|&byte| byte == b',').map(<[u8]>::len).max();
            self.add("text", longest.unwrap_or(0));
        }
        self.add("levels", deepest);
        self.add(if accepted { "instructions" } else { "refused instructions" }, instructions);
    }
}

/// The limits, and what stands one past them.
const LIMITS: [(&str, usize); 37] = [
    ("book", 0),
    ("book", 256),
    ("book", 257),
    ("guide", 16_384),
    ("refused guide", 16_385),
    ("listing", 327_680),
    ("listing", 327_681),
    ("plate", 2_953),
    ("refused plate", 2_953),
    ("refused plate", 2_954),
    ("instructions", 512),
    ("refused instructions", 513),
    ("own", 32),
    ("refused own", 33),
    ("phrase line", 1),
    ("phrase line", 2),
    ("levels", 16),
    ("levels", 17),
    ("text", 64),
    ("text", 65),
    ("scratch", 0),
    ("scratch", 1),
    ("scratch", SCRATCH - 1),
    ("scratch", SCRATCH),
    ("scratch", SCRATCH + 1),
    ("scratch", 511),
    ("scratch", 512),
    ("scratch", 600),
    ("input letters", 0),
    ("input letters", 2),
    ("input letters", 3),
    ("input letters", 4),
    ("book letters", 0),
    ("book letters", 2),
    ("book letters", 3),
    ("book letters", 4),
    ("plate letters", 1),
];

#[test]
fn every_limit_is_reached() {
    let mut met = Met::default();
    (0..60_000).map(|number| generate::case(12, number)).for_each(|case| met.case(&case));
    for limit in LIMITS {
        assert!(met.0.contains_key(&limit), "{limit:?} is not reached");
    }
}
