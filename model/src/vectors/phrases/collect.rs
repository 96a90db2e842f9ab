//! The cases of `vectors_phrases`.

use super::{books, Case};
use crate::cases::{book_of, lines, text, word};
use crate::generate::words::{fresh_text, Words};
use crate::phrases::List;
use crate::rng::Rng;
use crate::text::LF;

const SEED: u64 = 0x5EED_0013;
const RANDOM: usize = 150;
/// Random samples are no longer than this.
const LONGEST: usize = 700;
/// Counts of phrases at which the width of a place changes, and their neighbours.
const COUNTS: [usize; 9] = [1, 2, 3, 17, 18, 32, 33, 255, 256];
/// Counts and places far past every line.
const FAR: [u64; 3] = [1 << 32, u64::MAX - 1, u64::MAX];

pub fn collect() -> Vec<Case> {
    let mut rng = Rng::new(SEED);
    let mut cases = Vec::new();
    books::collect(&mut rng, &mut cases);
    small_lookups(&mut cases);
    places(&mut cases);
    lengths(&mut cases);
    random(&mut rng, &mut cases);
    widths(&mut cases);
    collisions(&mut cases);
    letters(&mut cases);
    cases
}

/// Books and own phrases that are good or not, each with each, and texts of
/// both, of one and of neither.
fn small_lookups(cases: &mut Vec<Case>) {
    let books = ["", "a\n", "a\nb\n", "b\na\nb\n", "b", "\n", "c\nb"];
    let texts = [(0, "b"), (1, "a"), (1, "b"), (2, "b"), (3, "b"), (3, ""), (32, "d")];
    let places = [(List::Book, 0), (List::Book, 1), (List::Own, 0), (List::Own, 1)];
    let owns = [
        "",
        "phrase,a\n",
        "phrase,a\nphrase,b\n",
        "phrase,c\nphrase,b\nprint,d\n",
        "phrase,b",
        "b\nphrase,b\n",
        "phrase,\nphrase\n,b,c\n",
    ];
    for (book, own) in books.into_iter().flat_map(|book| owns.map(|own| (book, own))) {
        let [book, own] = [book, own].map(|lines| lines.as_bytes().to_vec());
        for (count, text) in texts {
            let (book, own, text) = (book.clone(), own.clone(), text.as_bytes().to_vec());
            cases.push(Case::Find { book, own, count, text });
        }
        for (list, place) in places {
            let (book, own) = (book.clone(), own.clone());
            cases.push(Case::Text { book, own, list, place });
        }
    }
    for far in FAR {
        let (book, own) = (b"a\n".to_vec(), b"phrase,b\n".to_vec());
        for text in ["b", "c", ""] {
            let (book, own, text) = (book.clone(), own.clone(), text.as_bytes().to_vec());
            cases.push(Case::Find { book, own, count: far, text });
        }
        for list in [List::Book, List::Own] {
            let (book, own) = (book.clone(), own.clone());
            cases.push(Case::Text { book, own, list, place: far });
        }
    }
}

/// Lists of each count: the first, a middle, the last place and the one past it.
fn places(cases: &mut Vec<Case>) {
    let phrase_lines = |count| lines(count, |place| format!("phrase,{}", word(place))).into_bytes();
    for count in COUNTS {
        for place in [0, count / 2, count - 1, count] {
            let (book, own) = (book_of(count), b"phrase,zz\n".to_vec());
            find_and_text(cases, book, own, 1, place, List::Book);
            if count <= 33 {
                let (book, own) = (b"zz\nzy\n".to_vec(), phrase_lines(count));
                find_and_text(cases, book, own, count as u64, place, List::Own);
            }
        }
    }
    for count in [31, 32, 33] {
        let (book, own) = (book_of(40), phrase_lines(count));
        find_and_text(cases, book, own, count as u64, count - 1, List::Own);
    }
}

fn find_and_text(
    cases: &mut Vec<Case>,
    book: Vec<u8>,
    own: Vec<u8>,
    count: u64,
    place: usize,
    list: List,
) {
    let text = word(place).into_bytes();
    cases.push(Case::Find { book: book.clone(), own: own.clone(), count, text });
    cases.push(Case::Text { book, own, list, place: place as u64 });
}

/// Texts of 0, 1, 64 and 65 bytes beside phrases of one byte more, one less,
/// the same, and with another last byte.
fn lengths(cases: &mut Vec<Case>) {
    for length in [0, 1, 2, 63, 64, 65] {
        let other = text(length.max(1) - 1) + "y";
        let phrases = [text(length + 1), text(length.max(1) - 1), other, text(length)];
        let book = lines(4, |place| phrases[place].clone()).into_bytes();
        let own = lines(4, |place| format!("phrase,{}", phrases[place])).into_bytes();
        for text in [text(length), text(length) + "y", text(length) + " "] {
            let text = text.into_bytes();
            for (book, own) in [(book.clone(), vec![]), (vec![], own.clone())] {
                cases.push(Case::Find { book, own, count: 4, text: text.clone() });
            }
        }
        for place in 0..=4 {
            for list in [List::Book, List::Own] {
                let (book, own) = (book.clone(), own.clone());
                cases.push(Case::Text { book, own, list, place });
            }
        }
    }
}

/// The phrases of random samples, with texts that are phrases or nearly.
fn random(rng: &mut Rng, cases: &mut Vec<Case>) {
    let mut left = RANDOM;
    while left > 0 {
        let words = Words::new(rng);
        let (book, own) = (words.book_bytes(), words.phrase_lines(rng));
        if book.len() + own.len() > LONGEST {
            continue;
        }
        left -= 1;
        cases.push(Case::Check { book: book.clone() });
        let count = words.own.len() as u64;
        let text = if rng.once_in(4) { fresh_text(rng, true, true) } else { words.text(rng) };
        cases.push(Case::Find { book: book.clone(), own: own.clone(), count, text });
        let list = *rng.pick(&[List::Book, List::Own]);
        let place = rng.below(words.book.len().max(words.own.len()) + 2) as u64;
        cases.push(Case::Text { book, own, list, place });
    }
}

fn widths(cases: &mut Vec<Case>) {
    cases.extend((0..=300).map(|count| Case::Width { count }));
    for bits in 9..=15 {
        cases.extend([0, 1, 2].map(|more| Case::Width { count: (1 << bits) - 1 + more }));
    }
    cases.extend([65_535, 65_536].map(|count| Case::Width { count }));
}

/// Texts whose bytes, each times its place from 1, have the same sum, or sums
/// that differ by 65,536, among the phrases and looked for.
fn collisions(cases: &mut Vec<Case>) {
    let long = |first: usize, last: u8| [vec![b'~'; first], vec![last; 64 - first]].concat();
    let texts = [
        b"cb".to_vec(),
        b"ac".to_vec(),
        b"ea".to_vec(),
        b"g`".to_vec(),
        [vec![b'}'; 63], vec![b'~']].concat(),
        long(63, b'}'),
    ];
    for left_out in 0..texts.len() {
        let mut book: Vec<_> = texts.to_vec();
        book.remove(left_out);
        let book: Vec<u8> = book.into_iter().flat_map(|text| [text, vec![LF]].concat()).collect();
        for text in &texts {
            let (book, own) = (book.clone(), b"phrase,ea\n".to_vec());
            cases.push(Case::Find { book, own, count: 1, text: text.clone() });
        }
    }
}

/// Phrases with letters beyond ASCII: looked up, and their texts.
fn letters(cases: &mut Vec<Case>) {
    let book = "Łódź\nSão João\nTāwhiao\n".as_bytes();
    let own = b"phrase,Lodz\nphrase,Otorohanga\n";
    for text in ["Łódź", "Łódz", "Lodz", "São João", "Sa\u{303}o João", "Tāwhiao", "Ōtorohanga"]
    {
        let (book, own, text) = (book.to_vec(), own.to_vec(), text.as_bytes().to_vec());
        cases.push(Case::Find { book, own, count: 2, text });
    }
    for place in 0..4 {
        let (book, own) = (book.to_vec(), own.to_vec());
        cases.push(Case::Text { book, own, list: List::Book, place });
    }
}
