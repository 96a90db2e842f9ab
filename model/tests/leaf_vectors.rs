//! The cases of the vector programs for bits and text: what they hold, and that
//! the model's rules for them agree with each other.

mod common;

use common::cursor::{check_files, Cursor};
use model::bits::BitReader;
use model::number;
use model::vectors::{bits, pattern, text, Set};
use std::collections::HashSet;

fn bit_case(cursor: &mut Cursor) -> bits::Case {
    match cursor.number() {
        0 => {
            let bytes = cursor.slice();
            bits::Case::Read { bytes, place: cursor.long_number(), width: cursor.number() }
        }
        1 => bits::Case::Write {
            lent: cursor.number(),
            place: cursor.long_number(),
            width: cursor.number(),
            value: cursor.long_number(),
        },
        2 => bits::Case::ReadEight { bytes: cursor.slice(), place: cursor.long_number() },
        kind => panic!("no kind {kind}"),
    }
}

fn text_case(cursor: &mut Cursor) -> text::Case {
    use text::Case;
    let byte = |number: usize| u8::try_from(number).expect("a byte");
    match cursor.number() {
        0 => Case::Text { bytes: cursor.slice() },
        1 => Case::Parts { by: byte(cursor.number()), bytes: cursor.slice() },
        2 => Case::Texts { from: cursor.long_number(), bytes: cursor.slice() },
        3 => Case::Natural { limit: cursor.number() as u32, bytes: cursor.slice() },
        4 => Case::Constant { bytes: cursor.slice() },
        kind @ 5..=7 => {
            let lent = cursor.number();
            let place = cursor.long_number();
            match kind {
                5 => Case::PutNatural { lent, place, value: cursor.number() as u32 },
                6 => Case::PutNumber { lent, place, value: cursor.signed() },
                _ => Case::Put { lent, place, bytes: cursor.slice() },
            }
        }
        8 => Case::Same { one: cursor.slice(), other: cursor.slice() },
        9 => {
            let from = cursor.long_number();
            Case::Find { from, byte: byte(cursor.number()), bytes: cursor.slice() }
        }
        10 => Case::WellFormed { bytes: cursor.slice() },
        kind => panic!("no kind {kind}"),
    }
}

#[test]
fn stdin_gives_stdout() {
    check_files(Set::Bits, |cursor| bit_case(cursor).answer());
    check_files(Set::Text, |cursor| text_case(cursor).answer());
}

/// Every width is read and written at every bit of a byte, whole and cut off.
#[test]
fn bits_at_every_offset() {
    let mut seen = HashSet::new();
    for case in bits::collect() {
        let (written, length, place, width) = match case {
            bits::Case::Read { bytes, place, width } => (false, bytes.len(), place, width),
            bits::Case::Write { lent, place, width, .. } => (true, lent, place, width),
            bits::Case::ReadEight { .. } => continue,
        };
        assert!(length <= 256);
        let room = (length as u64 * 8).saturating_sub(place);
        seen.insert((written, place % 8, width, room >= width as u64));
        if room > 0 && room < width as u64 {
            seen.insert((written, 8, width, false));
        }
        if place >= 1 << 32 {
            seen.insert((written, 9, 0, false));
        }
    }
    for (written, widest) in [(false, 32), (true, 56)] {
        for (width, offset) in (0..=widest).flat_map(|width| (0..8).map(move |bit| (width, bit))) {
            assert!(seen.contains(&(written, offset, width, true)), "{width} at {offset}");
            assert!(width == 0 || seen.contains(&(written, offset, width, false)));
            assert!(width < 2 || seen.contains(&(written, 8, width, false)));
        }
        assert!(seen.contains(&(written, 9, 0, false)));
    }
}

/// Every width past 32 is written as ones and as ones and zeros in turn, with room
/// for all, some and none of the bits.
#[test]
fn wide_values() {
    let mut seen = HashSet::new();
    for case in bits::collect() {
        let bits::Case::Write { lent, place, width, value } = case else { continue };
        let room = (lent as u64 * 8).saturating_sub(place);
        seen.insert((width, value, room > 0, room >= width as u64));
    }
    let turns = u64::MAX / 3;
    for width in 33..=56 {
        for value in [(1 << width) - 1, u64::MAX, turns, !turns] {
            for (any, all) in [(false, false), (true, false), (true, true)] {
                assert!(seen.contains(&(width, value, any, all)), "{value:X} of {width}");
            }
        }
    }
}

/// The number of so many bits at a place, bit by bit.
fn bit_by_bit(bytes: &[u8], place: u64, width: usize) -> Option<u64> {
    (place..place + width as u64)
        .try_fold(0, |value, at| Some(value << 1 | u64::from(bits::read(bytes, at, 1)?)))
}

/// What is written is read back, and every other bit stays.
#[test]
fn bits_written_are_read() {
    for case in bits::collect() {
        let bits::Case::Write { lent, place, width, value } = case else { continue };
        let before = pattern(lent);
        let mut after = before.clone();
        let end = bits::put(&mut after, place, width, value);
        if width > 0 && end <= lent as u64 * 8 {
            let low = value & ((1 << width) - 1);
            assert_eq!(bit_by_bit(&after, place, width), Some(low));
            if width <= 32 {
                assert_eq!(bits::read(&after, place, width).map(u64::from), Some(low));
            }
        }
        let [mut old, mut new] = [BitReader::new(&before), BitReader::new(&after)];
        for at in 0..lent as u64 * 8 {
            let inside = at >= place && at - place < width as u64;
            assert!(old.take(1) == new.take(1) || inside);
        }
    }
}

/// 56 bits are read at every bit of a byte, with eight bytes left and with seven,
/// and the two readers of bits agree on them.
#[test]
fn eight_bytes_as_one_number() {
    let mut seen = HashSet::new();
    for case in bits::collect() {
        let bits::Case::ReadEight { bytes, place } = case else { continue };
        assert!(bytes.len() <= 256);
        let left = (bytes.len() as u64).checked_sub(place / 8);
        let high = bits::read(&bytes, place, 24).map(|high| u64::from(high) << 32);
        let low = bits::read(&bytes, place.saturating_add(24), 32).map(u64::from);
        let both = high.zip(low).map(|(high, low)| high | low);
        let enough = left.is_some_and(|left| left >= 8);
        assert_eq!(bits::read_eight(&bytes, place), both.filter(|_| enough));
        seen.insert((place % 8, left));
        if place >= 1 << 32 {
            seen.insert((8, left));
        }
    }
    for left in [0, 1, 7, 8, 9] {
        assert!((0..8).all(|bit| seen.contains(&(bit, Some(left)))), "{left}");
    }
    assert!(seen.contains(&(8, None)));
}

/// The two readers of numbers agree where both apply.
#[test]
fn naturals_as_numbers() {
    for case in text::collect() {
        let text::Case::Natural { limit, bytes } = case else { continue };
        if let Ok(high) = i32::try_from(limit) {
            let value = number::read(&bytes, 0, high).map(|value| value as u32);
            assert_eq!(text::natural(&bytes, limit), value);
        }
        if limit == 1 << 31 {
            let below = number::read(&[b"-", &bytes[..]].concat(), i32::MIN, -1);
            let size = text::natural(&bytes, limit).filter(|&value| value > 0);
            assert_eq!(size, below.map(i32::unsigned_abs));
        }
    }
}

/// Some lines of the format, by hand.
#[test]
fn lines_of_bits() {
    let read = |bytes: &[u8], place, width| {
        bits::Case::Read { bytes: bytes.to_vec(), place, width }.answer()
    };
    assert_eq!(read(&[0xA5, 0x0F], 4, 8), "Y,80\n");
    assert_eq!(read(&[0xA5], 1, 8), "N\n");
    assert_eq!(read(&[], 0, 0), "Y,0\n");
    assert_eq!(read(&[], u64::MAX, 0), "Y,0\n");
    assert_eq!(read(&[1], 8, 1), "N\n");
    assert_eq!(read(&[1], 1 << 61, 1), "N\n");
    let write =
        |lent, place, width, value| bits::Case::Write { lent, place, width, value }.answer();
    assert_eq!(write(3, 4, 8, 0xFFA5), "12,0A541B\n");
    assert_eq!(write(1, 6, 4, 0b1011), "10,0E\n");
    assert_eq!(write(0, 7, 32, 5), "39,\n");
    assert_eq!(write(2, u64::MAX - 3, 32, 5), format!("{},0D14\n", u64::MAX));
    assert_eq!(write(8, 4, 56, 0xFF12_3456_789A_BCDE), "60,0123456789ABCDEE\n");
    assert_eq!(write(9, 7, 55, u64::MAX), "62,0DFFFFFFFFFFFFFE45\n");
}

/// Some lines of the format, by hand.
#[test]
fn lines_of_eight() {
    let eight =
        |bytes: &[u8], place| bits::Case::ReadEight { bytes: bytes.to_vec(), place }.answer();
    let bytes = [0x12, 0x34, 0x56, 0x78, 0x9A, 0xBC, 0xDE, 0xF1];
    assert_eq!(eight(&bytes, 0), format!("Y,{}\n", 0x12_3456_789A_BCDE_u64));
    assert_eq!(eight(&bytes, 4), format!("Y,{}\n", 0x23_4567_89AB_CDEF_u64));
    assert_eq!(eight(&bytes, 8), "N\n");
    assert_eq!(eight(&bytes[..7], 0), "N\n");
    assert_eq!(eight(&[], u64::MAX), "N\n");
    assert_eq!(eight(&[0xFF; 8], 7), format!("Y,{}\n", (1_u64 << 56) - 1));
}

/// Some lines of the format, by hand.
#[test]
fn lines_of_text() {
    use text::Case;
    let bytes = |text: &str| text.as_bytes().to_vec();
    let lines = [
        (Case::Text { bytes: bytes("a b") }, "Y,Y\n"),
        (Case::Text { bytes: bytes("a,b") }, "Y,N\n"),
        (Case::Text { bytes: bytes("") }, "Y,N\n"),
        (Case::Text { bytes: vec![127] }, "N,N\n"),
        (Case::Text { bytes: bytes("é") }, "Y,Y\n"),
        (Case::Text { bytes: vec![0xC3] }, "Y,N\n"),
        (Case::Text { bytes: vec![0xA9, 0xC3] }, "Y,N\n"),
        (Case::Text { bytes: vec![0xC3, 31] }, "N,N\n"),
        (Case::Parts { by: b',', bytes: bytes("ab,,c") }, "3,6162,,63,\n"),
        (Case::Parts { by: b',', bytes: bytes("") }, "1,,\n"),
        (Case::Texts { from: 1, bytes: bytes(",a,b") }, "Y\n"),
        (Case::Texts { from: 0, bytes: bytes(",a,b") }, "N\n"),
        (Case::Texts { from: 3, bytes: bytes(",a,b") }, "Y\n"),
        (Case::Texts { from: 1, bytes: bytes(",é,b") }, "Y\n"),
        (Case::Texts { from: 1, bytes: b"\xC3,a,\xA9".to_vec() }, "N\n"),
        (Case::Texts { from: 1, bytes: b"\xC3,a,b".to_vec() }, "Y\n"),
        (Case::Natural { limit: 31, bytes: bytes("31") }, "Y,31\n"),
        (Case::Natural { limit: 31, bytes: bytes("32") }, "N\n"),
        (Case::Natural { limit: 31, bytes: bytes("07") }, "N\n"),
        (Case::Constant { bytes: bytes("-2147483648") }, "Y,-2147483648\n"),
        (Case::Constant { bytes: bytes("2147483648") }, "N\n"),
        (Case::PutNatural { lent: 3, place: 1, value: 100 }, "4,0D3130\n"),
        (Case::PutNumber { lent: 4, place: 0, value: -5 }, "2,2D351B22\n"),
        (Case::Put { lent: 2, place: 5, bytes: bytes("ab") }, "7,0D14\n"),
        (Case::Same { one: bytes("ab"), other: bytes("ab") }, "Y\n"),
        (Case::Same { one: bytes("ab"), other: bytes("abc") }, "N\n"),
        (Case::Find { from: 1, byte: b'a', bytes: bytes("aba") }, "2\n"),
        (Case::Find { from: 1, byte: b'c', bytes: bytes("aba") }, "3\n"),
        (Case::WellFormed { bytes: bytes("") }, "Y\n"),
        (Case::WellFormed { bytes: bytes("a\n\0é€😀") }, "Y\n"),
        (Case::WellFormed { bytes: b"\xED\xA0\x80".to_vec() }, "N\n"),
    ];
    for (case, line) in lines {
        assert_eq!(case.answer(), line, "{case:?}");
    }
}

/// All kinds, and both answers of every kind that has two; no long buffer.
#[test]
fn texts_of_all_kinds() {
    let mut seen = HashSet::new();
    for case in text::collect() {
        seen.insert((std::mem::discriminant(&case), case.answer().as_bytes()[0]));
        if let text::Case::PutNatural { lent, .. }
        | text::Case::PutNumber { lent, .. }
        | text::Case::Put { lent, .. } = case
        {
            assert!(lent <= 256);
        }
    }
    assert_eq!(seen.iter().filter(|(_, first)| *first == b'Y').count(), 6);
    assert_eq!(seen.iter().filter(|(_, first)| *first == b'N').count(), 6);
    let kinds: HashSet<_> = seen.into_iter().map(|(kind, _)| kind).collect();
    assert_eq!(kinds.len(), 11);
}
