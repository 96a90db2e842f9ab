//! What is measured, by size.

use super::inputs::*;
use super::{Subject, Work, OF_LISTING};
use model::cases::records::VOLTS;
use model::limits::{MAX_BOOK, MAX_INSTRUCTIONS};
use model::vectors::Call;

/// What the sizes are.
pub const LEGEND: &str = "\
small    case (b) of document 01, empty book
middle   a guide of 2 KB, a book of 40 phrases of 23 bytes and 6 of 25
large    512 instructions, 192 inputs of 8 options and 320 prints, which is all that a plate holds; every text is a
         phrase of a full book. Listing and plate: 256 phrases of 64 bytes, which differ in their last two. Guide:
         240 such phrases, behind them 16 of one letter, which the guide uses, since longer ones do not fit a guide
spelled  51 prints of 64 bytes and 2 inputs, none a phrase of the full book of 256 phrases: a plate of 2,953 bytes
book     an empty guide with that full book: the check of the book alone
phrases  512 instructions of every kind, whose texts are phrases of 8 bytes of a book of 40
lines    512 lines print,a, and their plate, empty book
asked    512 lines input,0,a, and their plate, empty book
tries    256 lines inputs,0,a,b,c, and their plate, each with two wrong answers and a right one, empty book
tests    400 ifs without a block, half of them with a constant of 32 bits, empty book
own      a listing of 32 own phrases of 13 bytes and 400 prints of them, and its plate, empty book
plate    the plate of 2,953 bytes of spelled texts, empty book
letters  44 prints of 64 bytes, nearly all of them letters beyond ASCII, and an input, all spelled, empty book
names    64 instructions, whose texts are names with letters beyond ASCII, of a book of 40 such names";

/// A size, how it is made, and the calls that are measured on it.
pub struct Size {
    pub name: &'static str,
    pub subject: fn() -> Subject,
    pub calls: &'static [Call],
}

pub const ALL: [Size; 15] = [
    Size { name: "small", subject: small, calls: &Call::ALL },
    Size { name: "middle", subject: middle, calls: &Call::ALL },
    Size { name: "large", subject: guide, calls: &[Call::Translate, Call::Walk] },
    Size { name: "large", subject: listing, calls: &OF_LISTING },
    Size { name: "spelled", subject: spelled_with_book, calls: &Call::ALL },
    Size { name: "book", subject: book, calls: &[Call::Translate] },
    Size { name: "phrases", subject: phrases, calls: &Call::ALL },
    Size { name: "lines", subject: short, calls: &Call::ALL },
    Size { name: "asked", subject: asked, calls: &Call::ALL },
    Size { name: "tries", subject: tries, calls: &[Call::Walk, Call::Run] },
    Size { name: "tests", subject: ifs, calls: &Call::ALL },
    Size { name: "own", subject: own, calls: &OF_LISTING },
    Size { name: "plate", subject: plate, calls: &OF_LISTING },
    Size { name: "letters", subject: letters, calls: &Call::ALL },
    Size { name: "names", subject: names, calls: &Call::ALL },
];

/// The work of a call at a size.
pub fn find(name: &str, call: &str) -> Option<Work> {
    for size in ALL.iter().filter(|size| size.name == name) {
        if let Some(&call) = size.calls.iter().find(|other| other.name() == call) {
            return Some((size.subject)().work(call));
        }
    }
    None
}

fn zeros() -> Vec<i32> {
    vec![0; MAX_INSTRUCTIONS]
}

fn small() -> Subject {
    Subject::of_guide(VOLTS.into(), Vec::new(), vec![100])
}

fn middle() -> Subject {
    Subject::of_guide(middle_guide(), middle_book(), vec![1; 64])
}

fn guide() -> Subject {
    Subject::of_guide(large_guide(), mixed_book(), zeros())
}

/// The listing is too long for a guide.
fn listing() -> Subject {
    Subject::of_listing(large_listing(), long_book(MAX_BOOK), zeros())
}

fn spelled_with_book() -> Subject {
    Subject::of_guide(spelled(), long_book(MAX_BOOK), zeros())
}

fn book() -> Subject {
    Subject::of_guide(Vec::new(), long_book(MAX_BOOK), Vec::new())
}

fn phrases() -> Subject {
    Subject::of_guide(series(MAX_INSTRUCTIONS), short_book(), zeros())
}

fn short() -> Subject {
    Subject::of_guide(prints(MAX_INSTRUCTIONS), Vec::new(), Vec::new())
}

fn asked() -> Subject {
    Subject::of_guide(questions(MAX_INSTRUCTIONS), Vec::new(), zeros())
}

fn tries() -> Subject {
    Subject::of_guide(choices(256), Vec::new(), [2, -1, 1].repeat(256))
}

fn ifs() -> Subject {
    Subject::of_guide(tests(), Vec::new(), Vec::new())
}

fn own() -> Subject {
    Subject::of_listing(own_prints(), Vec::new(), Vec::new())
}

fn letters() -> Subject {
    Subject::of_guide(lettered(), Vec::new(), zeros())
}

fn names() -> Subject {
    Subject::of_guide(named(64), names_book(), zeros())
}

fn plate() -> Subject {
    Subject::of_guide(spelled(), Vec::new(), zeros())
}
