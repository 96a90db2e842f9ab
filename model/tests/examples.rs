//! The cases (a) to (i) of document 01, and its list of mistakes.

use model::cases::notation::plate;
use model::cases::records::VOLTS;
use model::machine::Outcome;
use model::show::{plateshow, upper_hex};
use model::{read_plate, run, translate, walk, write_plate, Record, Refusal};

const EMPTY_ELSE: &str = "if,0,eq,0\nprint,a\nelse\nfi\nprint,b\n";

fn shown(guide: &str) -> String {
    String::from_utf8(plateshow(guide.as_bytes())).expect("characters")
}

/// The record of a guide, the same from its walk and from the run of its plate.
fn record(guide: &str, answers: &[i32]) -> Record {
    let walked = walk(guide.as_bytes(), b"", answers).expect("an accepted guide");
    let plate = translate(guide.as_bytes(), b"").expect("an accepted guide");
    assert_eq!(run(&plate, b"", answers).as_ref(), Ok(&walked));
    walked
}

fn of(transcript: &str, outcome: Outcome, taken: usize, steps: usize) -> Record {
    Record { transcript: transcript.as_bytes().to_vec(), outcome, taken, steps, wrong: 0 }
}

fn refused<T>(number: u32, place: usize) -> Result<T, Refusal> {
    Err(Refusal { number, place })
}

#[test]
fn a_shows_a_verdict() {
    assert_eq!(shown("printex,OK\n"), "printex,OK\nplate,002C9F2C18\n");
}

#[test]
fn b_has_179_bits() {
    let listing = "input,0,Volts\nif,0,lt,100,2\nprintex,Fuse\ngoto,0\nprint,OK\n";
    let by_hand = plate(
        "0 5:10 000 0:5 00 'Volts'; 101 0:5 2:3 00 100:16 2:9 011 00 'Fuse'; 100 0:9 010 00 'OK';",
    );
    assert_eq!(by_hand.length(), 179);
    assert_eq!(by_hand.bytes().len(), 23);
    assert_eq!(translate(VOLTS.as_bytes(), b""), Ok(by_hand.bytes()));
    assert_eq!(read_plate(&by_hand.bytes(), b""), Ok(listing.as_bytes().to_vec()));
    assert_eq!(write_plate(listing.as_bytes(), b""), Ok(by_hand.bytes()));
    let hex = upper_hex(&by_hand.bytes());
    assert_eq!(shown(VOLTS), format!("{listing}plate,{hex}\n"));
}

#[test]
fn c_on_90_gives_the_verdict() {
    let expected = of("Q,Volts\nA,90\nV,Fuse\n", Outcome::Verdict, 1, 3);
    assert_eq!(record(VOLTS, &[90]), expected);
}

#[test]
fn d_on_100_ends_without_one() {
    let expected = of("Q,Volts\nA,100\nS,OK\n", Outcome::End, 1, 3);
    assert_eq!(record(VOLTS, &[100]), expected);
}

#[test]
fn e_on_no_answers_waits() {
    let expected = of("Q,Volts\n", Outcome::Waiting, 0, 1);
    assert_eq!(record(VOLTS, &[]), expected);
}

#[test]
fn f_keeps_the_goto_of_an_empty_else() {
    let plate = translate(EMPTY_ELSE.as_bytes(), b"").expect("an accepted guide");
    let listing = "if,0,eq,0,2\nprint,a\ngoto,0\nprint,b\n";
    assert_eq!(read_plate(&plate, b""), Ok(listing.as_bytes().to_vec()));
    let expected = of("S,a\nS,b\n", Outcome::End, 0, 4);
    assert_eq!(record(EMPTY_ELSE, &[]), expected);
}

#[test]
fn g_empty_guide() {
    assert_eq!(translate(b"", b""), Ok(vec![0, 0]));
    assert_eq!(read_plate(&[0, 0], b""), Ok(vec![]));
    assert_eq!(record("", &[]), of("", Outcome::End, 0, 0));
    assert_eq!(shown(""), "plate,0000\n");
}

#[test]
fn h_constants_take_16_or_32_bits() {
    let table = [(32_767, 16), (-32_768, 16), (32_768, 32), (-32_769, 32)];
    for (constant, width) in table {
        let code = if width == 16 { "00" } else { "01" };
        let notation = format!("0 1:10 101 0:5 0:3 {code} {constant}:{width} 0:9");
        let guide = format!("if,0,eq,{constant}\nfi\n");
        assert_eq!(translate(guide.as_bytes(), b""), Ok(plate(&notation).bytes()));
    }
}

#[test]
fn i_last_goto() {
    assert!(write_plate(b"print,a\ngoto,0\n", b"").is_ok());
    assert_eq!(write_plate(b"print,a\ngoto,1\n", b""), refused(8, 2));
    let accepted = plate("0 1:10 100 0:9");
    assert_eq!(read_plate(&accepted.bytes(), b""), Ok(b"goto,0\n".to_vec()));
    let past = plate("0 1:10 100 ^1:9");
    assert_eq!(read_plate(&past.bytes(), b""), refused(8, 14));
    assert_eq!(past.mark, Some(14));
}

#[test]
fn plateshow_of_refused_guides() {
    assert_eq!(shown("print,a"), "refused,3,1\n");
    assert_eq!(shown("print,a\nprint\n"), "refused,4,2\n");
    assert_eq!(shown("phrase,OK\nprint,OK\n"), "refused,6,1\n");
    assert_eq!(shown("if,0,eq,0\n"), "refused,7,1\n");
    assert_eq!(shown(&"x".repeat(16_385)), "refused,2,0\n");
    let too_large = format!("print,{}\n", "x".repeat(64)).repeat(52);
    assert_eq!(shown(&too_large), "refused,10,0\n");
}
