//! The table of RFC 3629, by which the cases are worked out, against the check of the
//! standard library, which the model uses.

use model::cases::utf8::{about_rows, all, are_letters, ILL_FORMED, LETTERS};
use model::generate::letters::{put_in, spoil, text};
use model::rng::Rng;
use model::text::{is_text, is_well_formed};

fn check(bytes: &[u8]) {
    assert_eq!(are_letters(bytes), is_well_formed(bytes), "{bytes:X?}");
}

/// All strings of up to 2 bytes, and of 3 to 5 bytes about the ends of the ranges.
#[test]
fn short_strings() {
    check(b"");
    for first in 0..=255 {
        check(&[first]);
        (0..=255).for_each(|second| check(&[first, second]));
    }
    let edges = b"a\x7F\x80\x8F\x90\x9F\xA0\xBF\xC0\xC1\xC2\xDF\xE0\xE1\xEC\xED\xEE\xEF\xF0\xF1\xF3\xF4\xF5\xFF";
    let mut strings = vec![Vec::new()];
    for _ in 0..4 {
        let longer =
            strings.iter().flat_map(|front| edges.map(|edge| [front, &[edge][..]].concat()));
        strings = longer.collect();
        strings.iter().for_each(|bytes| check(bytes));
    }
    strings.iter().for_each(|bytes| check(&[bytes, &b"\x80"[..]].concat()));
}

/// Every letter that there is, and no surrogate.
#[test]
fn every_letter() {
    for code in 0..0x11_0000 {
        match char::from_u32(code) {
            Some(letter) => check(letter.to_string().as_bytes()),
            None => {
                let [high, low] = [code >> 6 & 0x3F, code & 0x3F].map(|bits| 0x80 | bits as u8);
                check(&[0xED, high, low]);
                assert!(!are_letters(&[0xED, high, low]));
            }
        }
    }
}

#[test]
fn random_strings() {
    let mut rng = Rng::new(4);
    for _ in 0..100_000 {
        let most = rng.between(2, 64);
        let mut bytes = text(&mut rng, most);
        assert!(is_text(&bytes) && !bytes.is_ascii() && bytes.len() <= most);
        check(&bytes);
        if rng.once_in(2) {
            put_in(&mut rng, &mut bytes);
        }
        spoil(&mut rng, &mut bytes);
        check(&bytes);
    }
}

/// The lists of the cases hold what they say, and both answers.
#[test]
fn lists_of_the_cases() {
    assert!(LETTERS.iter().all(|letter| is_text(letter.as_bytes()) && letter.chars().count() == 1));
    assert!(ILL_FORMED.iter().all(|bytes| !is_well_formed(bytes)));
    let rows = about_rows();
    let good = rows.iter().filter(|bytes| is_well_formed(bytes)).count();
    assert!(good >= 30 && rows.len() - good >= 30, "{good} of {}", rows.len());
    assert!(all().iter().all(|(bytes, well_formed)| is_well_formed(bytes) == *well_formed));
}
