//! The cases of the vector program for phrases: what they hold, and that the
//! model's rules for them agree with those of its listings and plates.

mod common;

use common::cursor::{check_files, Cursor};
use model::phrases::{List, Phrases, Place};
use model::vectors::phrases::{collect, find, Case};
use model::vectors::Set;
use std::collections::HashSet;

fn case(cursor: &mut Cursor) -> Case {
    match cursor.number() {
        0 => Case::Check { book: cursor.slice() },
        1 => {
            let [book, own] = [cursor.slice(), cursor.slice()];
            Case::Find { book, own, count: cursor.long_number(), text: cursor.slice() }
        }
        2 => {
            let [book, own] = [cursor.slice(), cursor.slice()];
            let list = [List::Book, List::Own][cursor.number()];
            Case::Text { book, own, list, place: cursor.long_number() }
        }
        3 => Case::Width { count: cursor.number() },
        kind => panic!("no kind {kind}"),
    }
}

#[test]
fn stdin_gives_stdout() {
    check_files(Set::Phrases, |cursor| case(cursor).answer());
}

/// Some lines of the format, by hand.
#[test]
fn lines_of_phrases() {
    let bytes = |text: &str| text.as_bytes().to_vec();
    let check = |book| Case::Check { book: bytes(book) };
    let find = |book, own, count, text| Case::Find {
        book: bytes(book),
        own: bytes(own),
        count,
        text: bytes(text),
    };
    let text = |list, place| Case::Text {
        book: bytes("a\nbc\n"),
        own: bytes("phrase,d\nphrase,ef\nprint,g\n"),
        list,
        place,
    };
    let lines = [
        (check(""), "Y,0\n"),
        (check("a\nb\n"), "Y,2\n"),
        (check("a\nb"), "N,2\n"),
        (check("a\n\n"), "N,2\n"),
        (check("a\na\n"), "N,2\n"),
        (find("a\nb\n", "phrase,b\n", 1, "b"), "Y,0,1\n"),
        (find("a\n", "phrase,c\nphrase,b\n", 2, "b"), "Y,1,1\n"),
        (find("a\n", "phrase,c\nphrase,b\n", 1, "b"), "N\n"),
        (find("b", "", 0, "b"), "N,1\n"),
        (find("cb\nac\n", "", 0, "ea"), "N\n"),
        (find("cb\nac\n", "", 0, "ac"), "Y,0,1\n"),
        (text(List::Book, 1), "6263\n"),
        (text(List::Book, 3), "\n"),
        (text(List::Own, 1), "6566\n"),
        (Case::Width { count: 18 }, "5\n"),
        (Case::Width { count: 1 }, "0\n"),
        (Case::Width { count: 0 }, "0\n"),
    ];
    for (case, line) in lines {
        assert_eq!(case.answer(), line, "{case:?}");
    }
}

/// Own phrases as a listing has them, for as long as each is taken.
fn phrases_of<'a>(book: &'a [u8], own: &'a [u8], count: u64) -> Option<Phrases<'a>> {
    let mut phrases = Phrases::of_book(book).ok()?;
    let mut lines = own.split_inclusive(|&byte| byte == b'\n');
    for _ in 0..count {
        let text = lines.next()?.strip_prefix(b"phrase,")?.strip_suffix(b"\n")?;
        if text.contains(&b',') || !phrases.add_own(text) {
            return None;
        }
    }
    Some(phrases)
}

/// A text's place is that of the model's lookup, and the text at that place is
/// the text, wherever the book and the own phrases are good.
#[test]
fn places_are_those_of_the_lookup() {
    let (mut places, mut lists) = (0, HashSet::new());
    for case in collect() {
        let Case::Find { book, own, count, text } = case else { continue };
        let Some(phrases) = phrases_of(&book, &own, count) else { continue };
        let found = find(&book, &own, count, &text);
        let place = found.map(|(list, index)| Place { list, index });
        assert_eq!(phrases.find(&text), place);
        places += 1;
        lists.insert(found.map(|(list, _)| list as usize));
        let Some((list, place)) = found else { continue };
        assert_eq!(phrases.list(list)[place], text);
        let hex: String = text.iter().map(|byte| format!("{byte:02X}")).collect();
        let case = Case::Text { book, own, list, place: place as u64 };
        assert_eq!(case.answer(), hex + "\n");
    }
    assert!(places >= 200 && lists.len() == 3);
}

/// An accepted book has as many phrases as lines, and the counts about each
/// limit are among the books.
#[test]
fn counts_of_books() {
    let (mut good, mut bad) = (HashSet::new(), HashSet::new());
    for case in collect() {
        let Case::Check { book } = case else { continue };
        match Phrases::of_book(&book) {
            Ok(phrases) => {
                let count = phrases.list(List::Book).len();
                assert_eq!(count, book.iter().filter(|&&byte| byte == b'\n').count());
                good.insert(count);
            }
            Err(refusal) => {
                bad.insert(refusal.place);
            }
        }
    }
    for count in [0, 1, 2, 3, 17, 18, 32, 33, 255, 256] {
        assert!(good.contains(&count) && bad.contains(&(count + 1)), "{count}");
    }
    assert!(!good.contains(&257));
}

/// A width is the least whose power of two is not below the count.
#[test]
fn widths_are_the_least() {
    let mut seen = HashSet::new();
    for case in collect() {
        let Case::Width { count } = case else { continue };
        assert!(count <= 65_536);
        let width = (0..).find(|&width| 1 << width >= count).expect("a width");
        assert_eq!(case.answer(), format!("{width}\n"));
        seen.insert(count);
    }
    for count in [0, 1, 2, 3, 17, 18, 32, 33, 255, 256, 257, 65_536] {
        assert!(seen.contains(&count));
    }
}
