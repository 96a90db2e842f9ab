//! Steps of walks and runs, jumps, and the longest transcripts.

use super::records::{guide, plate, RecordCase};
use super::sizes::{longest_line, one_long_phrase};
use super::text;

/// Steps, and above all leaving a true block before an else line.
pub fn steps() -> Vec<RecordCase> {
    let [holds, fails] = ["if,0,eq,0\n", "if,0,ne,0\n"];
    let deep = format!("{holds}{}else\nfi\n", "{}");
    let deep = (0..16).fold("print,a\n".to_owned(), |inner, _| deep.replace("{}", &inner));
    let outside = "C,q,a,b\nA,2\n".repeat(2) + "C,q,a,b\n";
    let case = |parts: &[&str], answers: &[i32], transcript, ends| {
        guide(&parts.concat(), "", answers, transcript, ends)
    };
    vec![
        case(&[holds, "print,a\n", "else\nfi\nprint,b\n"], &[], "S,a\nS,b\n", (1, 0, 4)),
        case(&[holds, "print,a\n", "fi\nprint,b\n"], &[], "S,a\nS,b\n", (1, 0, 3)),
        case(&[holds, "fi\n"], &[], "", (1, 0, 1)),
        case(&[holds, "else\nfi\n"], &[], "", (1, 0, 2)),
        case(&[holds, "else\nprint,b\nfi\n"], &[], "", (1, 0, 2)),
        case(&[fails, "fi\n"], &[], "", (1, 0, 1)),
        case(&[fails, "else\nfi\n"], &[], "", (1, 0, 1)),
        case(&[fails, "print,a\nelse\nprint,b\nfi\nprint,c\n"], &[], "S,b\nS,c\n", (1, 0, 3)),
        // Two true blocks left at one point.
        case(&[holds, holds, "print,a\nelse\nfi\nelse\nfi\n"], &[], "S,a\n", (1, 0, 5)),
        case(&[holds, holds, "print,a\nfi\nelse\nfi\n"], &[], "S,a\n", (1, 0, 4)),
        case(&[holds, holds, "print,a\nelse\nfi\nfi\n"], &[], "S,a\n", (1, 0, 4)),
        case(&[holds, fails, "print,a\nelse\nfi\nelse\nfi\n"], &[], "", (1, 0, 3)),
        case(&[fails, "else\n", holds, "else\nfi\nfi\n"], &[], "", (1, 0, 3)),
        // Left by a verdict, a wait or outcome 3.
        case(&[holds, "printex,v\nelse\nprint,b\nfi\n"], &[], "V,v\n", (0, 0, 2)),
        case(&[holds, "input,1,q\nelse\nfi\n"], &[], "Q,q\n", (2, 0, 2)),
        case(&[holds, "input,1,q\nelse\nfi\n"], &[5], "Q,q\nA,5\n", (1, 1, 3)),
        case(&[holds, "inputs,1,q,a,b\nelse\nfi\n"], &[2, 2, 2], &outside, (3, 2, 4)),
        case(&[fails, "else\nprintex,v\nfi\nprint,b\n"], &[], "V,v\n", (0, 0, 2)),
        case(&[&deep], &[], "S,a\n", (1, 0, 33)),
        case(&[&"print,a\n".repeat(512)], &[], &"S,a\n".repeat(512), (1, 0, 512)),
    ]
}

/// Gotos and ifs on plates that no guide makes.
pub fn jumps() -> Vec<RecordCase> {
    let [a, b] = ["010 00 'a';", "010 00 'b';"];
    let [holds, fails] = ["101 0:5 0:3 00 0:16", "101 0:5 1:3 00 0:16"];
    let case = |notation: String, transcript, ends| plate(&notation, "", &[], transcript, ends);
    vec![
        case("0 0:10".into(), "", (1, 0, 0)),
        case("0 1:10 100 0:9".into(), "", (1, 0, 1)),
        case(format!("0 3:10 100 0:9 {a} {b}"), "S,a\nS,b\n", (1, 0, 3)),
        case(format!("0 3:10 100 1:9 {a} {b}"), "S,b\n", (1, 0, 2)),
        case(format!("0 3:10 100 2:9 {a} {b}"), "", (1, 0, 1)),
        case(format!("0 4:10 100 1:9 {a} 100 1:9 {b}"), "", (1, 0, 2)),
        case(format!("0 3:10 {holds} 1:9 {a} {b}"), "S,a\nS,b\n", (1, 0, 3)),
        case(format!("0 3:10 {holds} 2:9 {a} {b}"), "S,a\nS,b\n", (1, 0, 3)),
        case(format!("0 3:10 {fails} 0:9 {a} {b}"), "S,a\nS,b\n", (1, 0, 3)),
        case(format!("0 3:10 {fails} 1:9 {a} {b}"), "S,b\n", (1, 0, 2)),
        case(format!("0 3:10 {fails} 2:9 {a} {b}"), "", (1, 0, 1)),
        case(format!("0 4:10 {fails} 1:9 100 1:9 {a} {b}"), "S,a\nS,b\n", (1, 0, 3)),
        case(format!("0 512:10{}", " 100 0:9".repeat(512)), "", (1, 0, 512)),
        plate("0 1:10 011 10 2:2", "x\ny\nz\n", &[], "V,z\n", (0, 0, 1)),
        plate("1 1:5 'p'; 'q'; 1:10 000 9:5 10 1 1", "x\n", &[-4], "Q,q\nA,-4\n", (1, 1, 1)),
    ]
}

/// The longest transcripts: 54,784 bytes of a guide, 918,016 of a plate, 512 times two
/// wrong answers and a right one; and those without a wrong answer, 20,480 of a guide and
/// 302,592 of a plate.
pub fn longest_transcripts() -> Vec<RecordCase> {
    let question = text(23);
    let lines = format!("input,0,{question}\n").repeat(512);
    let record = format!("Q,{question}\nA,-2147483648\n").repeat(512);
    let of_guide = guide(&lines, &(text(23) + "\n"), &[i32::MIN; 512], &record, (1, 512, 512));
    let inputs = format!(" 001 31:5 10 6:3{}", " 10".repeat(8)).repeat(512);
    let notation = format!("0 512:10{inputs}");
    let asked = longest_line().replace("inputs,31", "C");
    let book = String::from_utf8(one_long_phrase()).expect("letters");
    let record = (asked.clone() + "A,7\n").repeat(512);
    let of_plate = plate(&notation, &book, &[7; 512], &record, (1, 512, 512));
    let answers = [i32::MIN, i32::MIN, 7].repeat(512);
    let wrong = (asked.clone() + "A,-2147483648\n").repeat(2);
    let record = (wrong + &asked + "A,7\n").repeat(512);
    let with_tries = plate(&notation, &book, &answers, &record, (1, 1_536, 1_536));
    vec![of_guide, guide_with_tries(), of_plate, with_tries]
}

/// A guide of 16,384 bytes: 512 lines of 32, whose 20 bytes of texts are phrases.
fn guide_with_tries() -> RecordCase {
    let texts = format!("{0},{1},{1}", text(6), text(7));
    let lines = format!("inputs,0,{texts}\n").repeat(512);
    let wrong = format!("C,{texts}\nA,-2147483648\n").repeat(2);
    let record = format!("{wrong}C,{texts}\nA,1\n").repeat(512);
    let book = format!("{}\n{}\n", text(6), text(7));
    let answers = [i32::MIN, i32::MIN, 1].repeat(512);
    guide(&lines, &book, &answers, &record, (1, 1_536, 1_536))
}
