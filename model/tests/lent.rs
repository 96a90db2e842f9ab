//! Cause 11: the lent output and scratch, and what comes before it. Every case
//! of tests/limits.rs and tests/records.rs is tried with several lengths too.

use model::calls::{read_plate, run, translate, walk, write_plate, Ran};
use model::limits::SCRATCH;
use model::vectors::pattern;
use model::Refusal;

const SHORT: Refusal = Refusal { number: 11, place: 0 };

/// The plate of `printex,OK`, and its 5 bytes in a buffer of 8.
const PLATE: [u8; 5] = [0x00, 0x2C, 0x9F, 0x2C, 0x18];
const PLATE_IN_8: [u8; 8] = [0x00, 0x2C, 0x9F, 0x2C, 0x18, 48, 55, 62];

/// The pattern's first 8 bytes.
const UNTOUCHED: [u8; 8] = [13, 20, 27, 34, 41, 48, 55, 62];

fn refused<T>(number: u32, place: usize) -> Result<T, Refusal> {
    Err(Refusal { number, place })
}

#[test]
fn plates_written() {
    for call in [translate, write_plate] {
        let mut out = UNTOUCHED;
        assert_eq!(call(b"printex,OK\n", b"", &mut out), Ok(5));
        assert_eq!(out, PLATE_IN_8);
        let mut out = UNTOUCHED;
        assert_eq!(call(b"printex,OK\n", b"", &mut out[..5]), Ok(5));
        assert_eq!(out, PLATE_IN_8);
        for length in 0..5 {
            let mut out = UNTOUCHED;
            assert_eq!(call(b"printex,OK\n", b"", &mut out[..length]), Err(SHORT));
            assert_eq!(out, UNTOUCHED);
        }
    }
}

#[test]
fn listing_read() {
    for length in 0..14 {
        let mut out = pattern(length);
        let result = read_plate(&PLATE, b"", &mut out);
        if length < 11 {
            assert_eq!((result, out), (Err(SHORT), pattern(length)));
        } else {
            assert_eq!(result, Ok(11));
            assert_eq!(out[..11], *b"printex,OK\n");
            assert_eq!(out[11..], pattern(length)[11..]);
        }
    }
}

#[test]
fn transcripts() {
    let ran = Ran { length: 5, outcome: 0, taken: 0, steps: 1, wrong: 0 };
    for length in 0..8 {
        let mut walked_out = pattern(length);
        let walked = walk(b"printex,OK\n", b"", &[], &mut walked_out);
        let mut run_out = pattern(length);
        let run = run(&PLATE, b"", &[], &mut [0; SCRATCH], &mut run_out);
        assert_eq!((&run, &run_out), (&walked, &walked_out));
        if length < 5 {
            assert_eq!((walked, walked_out), (Err(SHORT), pattern(length)));
        } else {
            assert_eq!(walked, Ok(ran));
            assert_eq!(walked_out[..5], *b"V,OK\n");
            assert_eq!(walked_out[5..], pattern(length)[5..]);
        }
    }
}

/// A transcript that overruns after several lines leaves nothing behind.
#[test]
fn half_written_transcript() {
    let guide = b"print,a\nprint,b\ninput,0,c\n";
    let transcript = b"S,a\nS,b\nQ,c\nA,7\n";
    for length in 0..transcript.len() {
        let mut out = pattern(length);
        assert_eq!(walk(guide, b"", &[7], &mut out), Err(SHORT));
        assert_eq!(out, pattern(length));
    }
    let mut out = pattern(transcript.len());
    let ran = Ran { length: 16, outcome: 1, taken: 1, steps: 3, wrong: 0 };
    assert_eq!(walk(guide, b"", &[7], &mut out), Ok(ran));
    assert_eq!(out, transcript);
}

#[test]
fn scratch_of_63_and_64() {
    let run_with = |plate: &[u8], scratch: usize, room: usize| {
        let mut out = pattern(room);
        let result = run(plate, b"", &[], &mut vec![9; scratch], &mut out);
        assert!(result.is_ok() || out == pattern(room));
        result
    };
    for plate in [&PLATE[..], &[0, 0]] {
        for short in [0, 1, 63] {
            assert_eq!(run_with(plate, short, 20), Err(SHORT));
        }
        for enough in [64, 65, 511, 512] {
            assert!(run_with(plate, enough, 20).is_ok());
        }
    }
    assert_eq!(run_with(&PLATE, 64, 4), Err(SHORT));
    assert_eq!(run_with(&PLATE, 63, 4), Err(SHORT));
    assert!(run_with(&[0, 0], 64, 0).is_ok());
}

/// An empty result needs no room.
#[test]
fn empty_results() {
    let ran = Ran { length: 0, outcome: 1, taken: 0, steps: 0, wrong: 0 };
    assert_eq!(read_plate(&[0, 0], b"", &mut []), Ok(0));
    assert_eq!(walk(b"", b"", &[], &mut []), Ok(ran));
    assert_eq!(run(&[0, 0], b"", &[], &mut [0; SCRATCH], &mut []), Ok(ran));
    assert_eq!(translate(b"", b"", &mut [0; 1]), Err(SHORT));
    assert_eq!(write_plate(b"", b"", &mut [0; 2]), Ok(2));
}

/// 11 comes last: nothing is lent, and the other cause is given.
#[test]
fn other_causes_first() {
    let large = "print,0123456789012345678901234567890123456789\n".repeat(82);
    for call in [translate, write_plate] {
        assert_eq!(call(b"", b"\n", &mut []), refused(1, 1));
        assert_eq!(call(&[0; 327_681], b"", &mut []), refused(2, 0));
        assert_eq!(call(b"print,a", b"", &mut []), refused(3, 1));
        assert_eq!(call(b"print\n", b"", &mut []), refused(4, 1));
        assert_eq!(call(b"print,\n", b"", &mut []), refused(5, 1));
        assert_eq!(call(b"print,a\nphrase,b\n", b"", &mut []), refused(6, 2));
        assert_eq!(call(&b"print,a\n".repeat(513), b"", &mut []), refused(9, 513));
        assert_eq!(call(large.as_bytes(), b"", &mut []), refused(10, 0));
    }
    assert_eq!(translate(b"if,0,eq,0\n", b"", &mut []), refused(7, 1));
    assert_eq!(write_plate(b"goto,1\n", b"", &mut []), refused(8, 1));
    assert_eq!(walk(b"if,0,eq,0\n", b"", &[], &mut []), refused(7, 1));
    assert_eq!(walk(&[0; 16_385], b"", &[], &mut []), refused(2, 0));
    assert_eq!(walk(large.as_bytes(), b"", &[], &mut []), Err(SHORT));
    let plates: [(&[u8], u32, usize); 6] = [
        (&[0; 2_954], 10, 0),
        (&[], 12, 0),
        (&[0x7F, 0xFF], 13, 1),
        (&[0x80, 0x00], 14, 6),
        (&[0x00, 0x00, 0x00], 15, 11),
        (&[0x00, 0x32, 0x01, 0x00], 8, 14),
    ];
    for (plate, number, place) in plates {
        assert_eq!(read_plate(plate, b"", &mut []), refused(number, place));
        assert_eq!(run(plate, b"", &[], &mut [], &mut []), refused(number, place));
        assert_eq!(read_plate(plate, b"a", &mut []), refused(1, 1));
        assert_eq!(run(plate, b"a", &[], &mut [], &mut []), refused(1, 1));
    }
}
