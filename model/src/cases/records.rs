//! Walks and runs with their whole record, worked out by hand.

use super::{notation, Source};

/// A guide or plate on a list of answers, and its record.
pub struct RecordCase {
    pub source: Source,
    pub input: Vec<u8>,
    pub book: Vec<u8>,
    pub answers: Vec<i32>,
    pub transcript: Vec<u8>,
    pub outcome: u32,
    pub taken: usize,
    pub steps: usize,
    pub wrong: u32,
}

pub type RecordGroup = (&'static str, fn() -> Vec<RecordCase>);

pub const GROUPS: &[RecordGroup] = &[
    ("outcomes", outcomes),
    ("choices", choices),
    ("comparisons", comparisons),
    ("registers_kept", registers_kept),
    ("letters", letters),
    ("tries", super::tries::tries),
    ("tries_at_each_point", super::tries::at_each_point),
    ("tries_of_each_question", super::tries::of_each_question),
    ("tries_and_blocks", super::tries::and_blocks),
    ("steps", super::steps::steps),
    ("jumps", super::steps::jumps),
    ("longest_transcripts", super::steps::longest_transcripts),
];

/// Outcome, answers taken and steps. With outcome 3 there are 3 wrong answers; else
/// there are none, but for a wait that [`RecordCase::wrong`] says so of.
pub type Ends = (u32, usize, usize);

impl RecordCase {
    /// The same, a wait after so many wrong answers to its question.
    pub fn wrong(self, wrong: u32) -> RecordCase {
        RecordCase { wrong, ..self }
    }
}

pub fn guide(input: &str, book: &str, answers: &[i32], transcript: &str, ends: Ends) -> RecordCase {
    let (outcome, taken, steps) = ends;
    RecordCase {
        source: Source::Guide,
        input: input.as_bytes().to_vec(),
        book: book.as_bytes().to_vec(),
        answers: answers.to_vec(),
        transcript: transcript.as_bytes().to_vec(),
        outcome,
        taken,
        steps,
        wrong: if outcome == 3 { 3 } else { 0 },
    }
}

pub fn plate(
    notation: &str,
    book: &str,
    answers: &[i32],
    transcript: &str,
    ends: Ends,
) -> RecordCase {
    RecordCase {
        source: Source::Plate,
        input: notation::plate(notation).bytes(),
        ..guide("", book, answers, transcript, ends)
    }
}

pub const VOLTS: &str = "input,0,Volts\nif,0,lt,100\nprintex,Fuse\nelse\nfi\nprint,OK\n";

/// The four outcomes, answers left over, and the form of an answer.
fn outcomes() -> Vec<RecordCase> {
    let volts = |answers: &[i32], transcript, ends| guide(VOLTS, "", answers, transcript, ends);
    let phrases = "print,spelled\nprint,book\nprintex,book\nprint,never\n";
    let own = "1 0:5 'own'; 4:10 010 10 1 010 10 0 011 00 'spelled'; 010 00 'never';";
    let mut cases = vec![
        guide("", "", &[], "", (1, 0, 0)),
        guide("", "", &[1, 2], "", (1, 0, 0)),
        guide("", "c\n", &[], "", (1, 0, 0)),
        plate("1 1:5 'a'; 'b'; 0:10", "c\n", &[], "", (1, 0, 0)),
        guide("print,a\n", "", &[], "S,a\n", (1, 0, 1)),
        guide("printex,a\n", "", &[7], "V,a\n", (0, 0, 1)),
        guide("printex,a\nprintex,b\nprint,c\n", "", &[], "V,a\n", (0, 0, 1)),
        volts(&[90], "Q,Volts\nA,90\nV,Fuse\n", (0, 1, 3)),
        volts(&[99, 5, 6], "Q,Volts\nA,99\nV,Fuse\n", (0, 1, 3)),
        volts(&[100], "Q,Volts\nA,100\nS,OK\n", (1, 1, 3)),
        volts(&[101, 0], "Q,Volts\nA,101\nS,OK\n", (1, 1, 3)),
        volts(&[], "Q,Volts\n", (2, 0, 1)),
        guide(phrases, "book\n", &[], "S,spelled\nS,book\nV,book\n", (0, 0, 3)),
        plate(own, "book\n", &[], "S,own\nS,book\nV,spelled\n", (0, 0, 3)),
    ];
    let two = "input,0,a\nprint,b\ninput,1,c\n";
    cases.push(guide(two, "", &[5], "Q,a\nA,5\nS,b\nQ,c\n", (2, 1, 3)));
    cases.push(guide(two, "", &[5, 6], "Q,a\nA,5\nS,b\nQ,c\nA,6\n", (1, 2, 3)));
    for answer in [0, 1, -1, 9, 10, -10, 32_768, -32_769, i32::MAX, i32::MIN] {
        let transcript = format!("Q,a b\nA,{answer}\n");
        cases.push(guide("input,31,a b\n", "", &[answer], &transcript, (1, 1, 1)));
    }
    cases
}

/// Answers at either end of 2, 3 and 8 options.
fn choices() -> Vec<RecordCase> {
    let mut cases = Vec::new();
    for (options, last) in [("a,b", 1), ("a,b,c", 2), ("a,b,c,d,e,f,g,h", 7)] {
        let input = format!("inputs,4,Pick,{options}\nprint,z\n");
        let question = format!("C,Pick,{options}\n");
        for answer in [0, 1, last] {
            let transcript = format!("{question}A,{answer}\nS,z\n");
            cases.push(guide(&input, "", &[answer, 0], &transcript, (1, 1, 2)));
        }
        for answer in [-1, last + 1, last + 2, i32::MIN, i32::MAX, 256, 1 << 16] {
            let again = format!("{question}A,{answer}\n{question}");
            let right = format!("{again}A,0\nS,z\n");
            cases.push(guide(&input, "", &[answer, 0], &right, (1, 2, 3)));
            cases.push(guide(&input, "", &[answer], &again, (2, 1, 2)).wrong(1));
            let third = format!("{again}A,{answer}\n{question}");
            cases.push(guide(&input, "", &[answer, answer, answer, 0], &third, (3, 2, 3)));
        }
        cases.push(guide(&input, "", &[], &question, (2, 0, 1)));
    }
    let input = "input,1,n\ninputs,0,Pick,a,b\nif,0,eq,1\nprintex,one\nfi\nprint,zero\n";
    let start = "Q,n\nA,7\nC,Pick,a,b\n";
    let one = format!("{start}A,1\nV,one\n");
    let zero = format!("{start}A,0\nS,zero\n");
    let outside = format!("{start}A,2\nC,Pick,a,b\nA,-1\nC,Pick,a,b\n");
    cases.extend([
        guide(input, "b\n", &[7, 1], &one, (0, 2, 4)),
        guide(input, "b\n", &[7, 0], &zero, (1, 2, 4)),
        guide(input, "b\n", &[7, 2, -1, 2, 0], &outside, (3, 3, 4)),
        guide(input, "b\n", &[7], start, (2, 1, 2)),
    ]);
    cases
}

/// Each OP with values below, at and above its constant.
fn comparisons() -> Vec<RecordCase> {
    // The values -1, 0 and 1 stand for below, at and above.
    let table = [
        ("eq", [false, true, false]),
        ("ne", [true, false, true]),
        ("lt", [true, false, false]),
        ("le", [true, true, false]),
        ("gt", [false, false, true]),
        ("ge", [false, true, true]),
    ];
    let mut cases = Vec::new();
    for (op, holds) in table {
        for constant in [0, 5, -1, 32_767, -32_769, i32::MAX, i32::MIN] {
            let input =
                format!("input,31,v\nif,31,{op},{constant}\nprint,yes\nelse\nprint,no\nfi\n");
            for (side, holds) in [-1, 0, 1].into_iter().zip(holds) {
                let Some(value) = i32::checked_add(constant, side) else {
                    continue;
                };
                let (word, steps) = if holds { ("yes", 4) } else { ("no", 3) };
                let transcript = format!("Q,v\nA,{value}\nS,{word}\n");
                cases.push(guide(&input, "", &[value], &transcript, (1, 1, steps)));
            }
        }
    }
    let lowest = "input,0,v\nif,0,gt,-2147483648\nprint,a\nfi\nif,0,lt,2147483647\nprint,b\nfi\n";
    let highest_answer = "Q,v\nA,2147483647\nS,a\n";
    cases.push(guide(lowest, "", &[i32::MAX], highest_answer, (1, 1, 4)));
    let lowest_answer = "Q,v\nA,-2147483648\nS,b\n";
    cases.push(guide(lowest, "", &[i32::MIN], lowest_answer, (1, 1, 4)));
    cases
}

/// Registers are 0 at first, apart from each other, and keep the last answer.
fn registers_kept() -> Vec<RecordCase> {
    let unset = "if,31,eq,0\nprint,zero\nfi\nif,0,ne,0\nprint,set\nfi\n";
    let two = "input,1,a\ninput,2,b\nif,1,eq,10\nprint,c\nfi\nif,2,eq,20\nprint,d\nfi\n";
    let again = "input,1,a\ninput,1,b\nif,1,eq,20\nprint,c\nfi\n";
    let wrong = "input,1,a\nif,1,eq,3\ninputs,1,b,c,d\nfi\nprint,e\n";
    vec![
        guide(unset, "", &[], "S,zero\n", (1, 0, 3)),
        guide(two, "", &[10, 20], "Q,a\nA,10\nQ,b\nA,20\nS,c\nS,d\n", (1, 2, 6)),
        guide(two, "", &[20, 10], "Q,a\nA,20\nQ,b\nA,10\n", (1, 2, 4)),
        guide(again, "", &[10, 20], "Q,a\nA,10\nQ,b\nA,20\nS,c\n", (1, 2, 4)),
        guide(again, "", &[20, 10], "Q,a\nA,20\nQ,b\nA,10\n", (1, 2, 3)),
        guide(wrong, "", &[3, 3], "Q,a\nA,3\nC,b,c,d\nA,3\nC,b,c,d\n", (2, 2, 4)).wrong(1),
        guide(wrong, "", &[3, 3, 0], "Q,a\nA,3\nC,b,c,d\nA,3\nC,b,c,d\nA,0\nS,e\n", (1, 3, 5)),
    ]
}

/// Texts with letters beyond ASCII stand in the transcript byte by byte.
fn letters() -> Vec<RecordCase> {
    let book = "Tāwhiao\nŌtorohanga\n";
    let input = "inputs,0,Kei hea?,Tāwhiao,Łódź,São João\nif,0,eq,1\nprintex,Łódź\nfi\n\
                 input,1,Ōtorohanga kV\nprint,Ōtorohanga\n";
    let asked = "C,Kei hea?,Tāwhiao,Łódź,São João\n";
    let all = format!("{asked}A,0\nQ,Ōtorohanga kV\nA,33\nS,Ōtorohanga\n");
    let long = super::utf8::text_of("\u{10FFFF}", 64);
    let own = "1 0:5 'p'; 3:10 010 10 1 010 10 0 1:1 011 01 <é€😀>|";
    vec![
        guide(input, book, &[1], &format!("{asked}A,1\nV,Łódź\n"), (0, 1, 3)),
        guide(input, book, &[0, 33], &all, (1, 2, 4)),
        guide(input, "", &[0, 33], &all, (1, 2, 4)),
        guide(input, book, &[], asked, (2, 0, 1)),
        guide(&format!("printex,{long}\n"), "", &[], &format!("V,{long}\n"), (0, 0, 1)),
        guide("print,\u{80}\n", "\u{FEFF}\n", &[], "S,\u{80}\n", (1, 0, 1)),
        plate(own, book, &[], "S,p\nS,Ōtorohanga\nV,é€😀\n", (0, 0, 3)),
    ]
}
