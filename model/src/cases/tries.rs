//! Answers outside the options of an inputs question: two more tries.

use super::records::{guide, plate, Ends, RecordCase};

/// The question of the worked figures.
const COL: &str = "inputs,3,Col,red,blue\n";

/// The worked figures, and answers left over behind each end.
pub fn tries() -> Vec<RecordCase> {
    let asked = "C,Col,red,blue\n";
    let once = format!("{asked}A,5\n{asked}");
    let twice = format!("{once}A,6\n{asked}");
    let case = |answers: &[i32], transcript: &str, ends| guide(COL, "", answers, transcript, ends);
    vec![
        case(&[], asked, (2, 0, 1)),
        case(&[5], &once, (2, 1, 2)).wrong(1),
        case(&[5, 6], &twice, (2, 2, 3)).wrong(2),
        case(&[5, 6, 7], &twice, (3, 2, 3)),
        case(&[5, 6, 1], &format!("{twice}A,1\n"), (1, 3, 3)),
        case(&[5, 1], &format!("{once}A,1\n"), (1, 2, 2)),
        case(&[1], &format!("{asked}A,1\n"), (1, 1, 1)),
        case(&[5, 6, 7, 1], &twice, (3, 2, 3)),
        case(&[5, 6, 7, 8, 9], &twice, (3, 2, 3)),
        case(&[5, 6, 1, 7], &format!("{twice}A,1\n"), (1, 3, 3)),
        case(&[0, 5], &format!("{asked}A,0\n"), (1, 1, 1)),
    ]
}

/// 0 to 3 wrong answers to a question with 2, 3 and 8 options, then none, a right one
/// or another wrong one; on each side of the options and far from them.
pub fn at_each_point() -> Vec<RecordCase> {
    let mut cases = Vec::new();
    for (options, count) in [("a,b", 2), ("a,b,c", 3), ("a,b,c,d,e,f,g,h", 8)] {
        for outside in [-1, count, count + 1, 255, 256, i32::MIN, i32::MAX] {
            for wrong in 0..=3 {
                cases.extend(after_wrong(options, outside, wrong));
            }
        }
    }
    cases
}

/// So many wrong answers, alone, and followed by the first option and the last.
fn after_wrong(options: &str, outside: i32, wrong: usize) -> Vec<RecordCase> {
    let last = options.split(',').count() as i32 - 1;
    let input = format!("inputs,31,Pick,{options}\nif,31,eq,{last}\nprint,z\nfi\n");
    let asked = format!("C,Pick,{options}\n");
    let tries = wrong.min(2);
    let start = format!("{asked}A,{outside}\n").repeat(tries) + &asked;
    let case = |more: &[i32], lines: &str, ends: Ends| {
        let answers = [&vec![outside; wrong][..], more].concat();
        guide(&input, "", &answers, &(start.clone() + lines), ends)
    };
    if wrong == 3 {
        return vec![case(&[], "", (3, 2, 3)), case(&[0], "", (3, 2, 3))];
    }
    let taken = tries + 1;
    vec![
        case(&[], "", (2, tries, taken)).wrong(tries as u32),
        case(&[0], "A,0\n", (1, taken, taken + 1)),
        case(&[last, outside], &format!("A,{last}\nS,z\n"), (1, taken, taken + 2)),
    ]
}

/// Wrong answers belong to one question: the next one, of the same words or others,
/// starts anew, and an input takes any answer.
pub fn of_each_question() -> Vec<RecordCase> {
    let two = "inputs,0,q,a,b\ninputs,0,q,a,b\nprintex,v\n";
    let asked = "C,q,a,b\n";
    let first = format!("{asked}A,7\n{asked}A,8\n{asked}A,1\n");
    let second = first.clone() + asked;
    let case = |answers: &[i32], lines: &str, ends| guide(two, "", answers, lines, ends);
    let wrong = |lines: &str| format!("{lines}A,9\n{asked}");
    let third = wrong(&wrong(&second));
    let mixed = "inputs,0,q,a,b\ninput,1,n\ninputs,2,q,a,b\n";
    let mixed_start = format!("{asked}A,-1\n{asked}A,0\nQ,n\n");
    vec![
        case(&[7, 8, 1], &second, (2, 3, 4)),
        case(&[7, 8, 1, 9], &wrong(&second), (2, 4, 5)).wrong(1),
        case(&[7, 8, 1, 9, 9], &third, (2, 5, 6)).wrong(2),
        case(&[7, 8, 1, 9, 9, 9], &third, (3, 5, 6)),
        case(&[7, 8, 1, 9, 9, 0], &format!("{third}A,0\nV,v\n"), (0, 6, 7)),
        case(&[7, 8, 1, 0, 9], &format!("{second}A,0\nV,v\n"), (0, 4, 5)),
        guide(mixed, "", &[-1, 0], &mixed_start, (2, 2, 3)),
        guide(mixed, "", &[-1, 0, 99], &format!("{mixed_start}A,99\n{asked}"), (2, 3, 4)),
        guide(
            mixed,
            "",
            &[-1, 0, 99, 99, 99, 99],
            &format!("{mixed_start}A,99\n{}{asked}", format!("{asked}A,99\n").repeat(2)),
            (3, 5, 6),
        ),
    ]
}

/// Tries inside blocks and on plates, and what the registers hold after them.
pub fn and_blocks() -> Vec<RecordCase> {
    let asked = "C,q,a,b\n";
    let twice = format!("{asked}A,2\n{asked}A,-2\n{asked}");
    // A true block is left by a step after a right answer alone.
    let block = "if,5,eq,0\ninputs,0,q,a,b\nelse\nprint,e\nfi\nprint,f\n";
    let case = |answers: &[i32], lines: &str, ends| guide(block, "", answers, lines, ends);
    // The register of the question has the right answer, and others stay.
    let kept = "input,1,n\ninput,0,m\ninputs,0,q,a,b\nif,1,eq,2\nprint,kept\nfi\n\
                if,0,eq,1\nprintex,one\nfi\n";
    let asked_twice = format!("Q,n\nA,2\nQ,m\nA,-2\n{twice}");
    let jump = "0 3:10 100 1:9 010 00 'x'; 001 9:5 00 'q'; 0:3 00 'a'; 00 'b';";
    vec![
        case(&[2, -2], &twice, (2, 2, 4)).wrong(2),
        case(&[2, -2, 2], &twice, (3, 2, 4)),
        case(&[2, -2, 0], &format!("{twice}A,0\nS,f\n"), (1, 3, 6)),
        guide(kept, "", &[2, -2, 2, -2], &asked_twice, (2, 4, 5)).wrong(2),
        guide(
            kept,
            "",
            &[2, -2, 2, -2, 1],
            &format!("{asked_twice}A,1\nS,kept\nV,one\n"),
            (0, 5, 9),
        ),
        guide(kept, "", &[2, -2, 2, -2, 0], &format!("{asked_twice}A,0\nS,kept\n"), (1, 5, 8)),
        plate(jump, "", &[2, -2], &twice, (2, 2, 4)).wrong(2),
        plate(jump, "", &[2, -2, 0], &format!("{twice}A,0\n"), (1, 3, 4)),
        plate(jump, "", &[2, -2, 9], &twice, (3, 2, 4)),
    ]
}
