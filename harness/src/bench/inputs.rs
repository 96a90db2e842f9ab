//! Books, guides and listings of given sizes, all accepted.

use model::cases::{lines, text, word};
use model::limits::{MAX_BOOK, MAX_INSTRUCTIONS, MAX_LEVELS, MAX_OWN, MAX_TEXT};

/// A phrase of 64 bytes; they differ in their last two.
pub fn long_phrase(place: usize) -> String {
    text(MAX_TEXT - 2) + &word(place)
}

/// So many phrases of 64 bytes.
pub fn long_book(count: usize) -> Vec<u8> {
    lines(count, long_phrase).into_bytes()
}

/// 240 phrases of 64 bytes, and behind them 16 of one letter.
pub fn mixed_book() -> Vec<u8> {
    let short = lines(16, |place| letter(place).to_string());
    [long_book(MAX_BOOK - 16), short.into_bytes()].concat()
}

fn letter(place: usize) -> char {
    char::from(b'A' + (place % 16) as u8)
}

/// 40 phrases of 23 bytes, and behind them 6 of 25.
pub fn middle_book() -> Vec<u8> {
    (lines(40, middle_phrase) + &lines(6, wording)).into_bytes()
}

fn wording(place: usize) -> String {
    format!("Wording of the district {}", place % 6)
}

fn middle_phrase(place: usize) -> String {
    format!("Look at the terminal {:02}", place % 40)
}

/// 40 phrases of 8 bytes.
pub fn short_book() -> Vec<u8> {
    lines(40, short_phrase).into_bytes()
}

fn short_phrase(place: usize) -> String {
    format!("Reading{}", char::from(b'0' + (place % 40) as u8))
}

/// A guide of some 2 KB, most of its texts phrases of the middle book.
pub fn middle_guide() -> Vec<u8> {
    let mut guide = String::new();
    let mut place = 0;
    while guide.len() < 1_900 {
        let [ask, yes, no] = [3, 5, 7].map(|step| middle_phrase(place * step));
        guide += &format!(
            "inputs,{r},{ask},{yes},{no},Other {place}\nif,{r},eq,0\nprint,{wording}\n\
             else\ninput,{s},{yes}\nif,{s},gt,{limit}\nprint,Over {limit}\nfi\nfi\n",
            r = place % 32,
            s = (place + 1) % 32,
            wording = wording(place),
            limit = place * 9_000,
        );
        place += 1;
    }
    guide.into_bytes()
}

/// 192 inputs of 8 options and 320 prints: 512 instructions, of which no more inputs fit a plate with a full book.
pub fn large(text: impl Fn(usize) -> String) -> Vec<u8> {
    let inputs = 192;
    let mut out = String::new();
    for place in 0..MAX_INSTRUCTIONS {
        if place < inputs {
            let texts: Vec<String> = (0..9).map(|field| text(place * 37 + field * 29)).collect();
            out += &format!("inputs,{},{}\n", place % 32, texts.join(","));
        } else {
            out += &format!("print,{}\n", text(place * 37));
        }
    }
    out.into_bytes()
}

/// `large` with the long phrases of a full book.
pub fn large_listing() -> Vec<u8> {
    large(|place| long_phrase(place % MAX_BOOK))
}

/// `large` with the phrases of one letter of the mixed book.
pub fn large_guide() -> Vec<u8> {
    large(|place| letter(place).to_string())
}

/// 51 prints of 64 bytes and 2 inputs, all spelled: a plate of 2,953 bytes without filling.
pub fn spelled() -> Vec<u8> {
    let prints = lines(51, |place| format!("print,{}{}", text(MAX_TEXT - 2), upper(place)));
    let inputs = ["input,0,spelled8", "input,1,spelled_9", ""].join("\n");
    (prints + &inputs).into_bytes()
}

/// 44 prints of 64 bytes, each 31 letters of 2 bytes and two of ASCII, and an input, all spelled: a plate of 2,903 bytes.
pub fn lettered() -> Vec<u8> {
    let prints =
        lines(44, |place| format!("print,{}{}", "é".repeat(MAX_TEXT / 2 - 1), upper(place)));
    (prints + "input,0,Ōtorohanga\n").into_bytes()
}

/// 40 names of 15 to 19 bytes, each with letters beyond ASCII.
pub fn names_book() -> Vec<u8> {
    lines(40, name).into_bytes()
}

fn name(place: usize) -> String {
    let town = ["Tāwhiao", "Ōtorohanga", "São João", "Łódź"][place % 4];
    format!("{town} line {:02}", place % 40)
}

/// So many prints and questions, a multiple of 4, whose texts are names of that book.
pub fn named(instructions: usize) -> Vec<u8> {
    let four = |place: usize| {
        let [a, b, c] = [3, 5, 7].map(|step| name(place * step));
        let r = place % 32;
        format!("inputs,{r},{a},{b},{c}\nprint,{b}\ninput,{r},{c}\nprint,{a}")
    };
    lines(instructions / 4, four).into_bytes()
}

fn upper(place: usize) -> String {
    word(place).to_uppercase()
}

/// So many lines `print,a`.
pub fn prints(count: usize) -> Vec<u8> {
    "print,a\n".repeat(count).into_bytes()
}

/// So many lines `input,0,a`.
pub fn questions(count: usize) -> Vec<u8> {
    "input,0,a\n".repeat(count).into_bytes()
}

/// So many lines inputs,0,a,b,c.
pub fn choices(count: usize) -> Vec<u8> {
    "inputs,0,a,b,c\n".repeat(count).into_bytes()
}

/// 400 ifs without a block, each second one with a constant of 32 bits, which is near all that a plate holds.
pub fn tests() -> Vec<u8> {
    "if,0,eq,0\nfi\nif,0,eq,100000\nfi\n".repeat(200).into_bytes()
}

/// A listing of 32 own phrases of 13 bytes, and 400 prints of them.
pub fn own_prints() -> Vec<u8> {
    let own = |place: usize| format!("own phrase {:02}", place % MAX_OWN);
    let phrases = lines(MAX_OWN, |place| format!("phrase,{}", own(place)));
    let prints = lines(400, |place| format!("print,{}", own(place * 7)));
    (phrases + &prints).into_bytes()
}

/// So many instructions of a guide, a multiple of 8, with phrases of the short book.
pub fn series(instructions: usize) -> Vec<u8> {
    let eight = |place: usize| {
        let [a, b, c] = [3, 5, 7].map(|step| short_phrase(place * step));
        format!(
            "inputs,{r},{a},{b},{c}\nprint,{b}\nif,{r},eq,0\nprint,{c}\nelse\nprint,{a}\nfi\n\
             input,{r},{c}\nprint,{a}",
            r = place % 32,
        )
    };
    lines(instructions / 8, eight).into_bytes()
}

/// 512 instructions inside so many ifs that hold, each with an else line.
pub fn nested(levels: usize) -> Vec<u8> {
    let prints = "print,a\n".repeat(MAX_INSTRUCTIONS - 2 * levels);
    ("if,0,eq,0\n".repeat(levels) + &prints + &"else\nfi\n".repeat(levels)).into_bytes()
}

/// 512 instructions; 24 prints stand in front of each of 16 nested ifs, and the rest inside.
pub fn stepped() -> Vec<u8> {
    let front = ("print,a\n".repeat(24) + "if,0,eq,0\n").repeat(MAX_LEVELS);
    let rest = MAX_INSTRUCTIONS - 25 * MAX_LEVELS - MAX_LEVELS;
    (front + &"print,a\n".repeat(rest) + &"else\nfi\n".repeat(MAX_LEVELS)).into_bytes()
}

/// A listing of 32 own phrases of 64 bytes, and 160 prints of the last one.
pub fn own_phrases() -> Vec<u8> {
    let phrases = lines(MAX_OWN, |place| format!("phrase,{}", long_phrase(place)));
    let print = format!("print,{}\n", long_phrase(MAX_OWN - 1));
    (phrases + &print.repeat(160)).into_bytes()
}

/// Questions in the innermost of 16 levels, one for a number and one with 8 options, and in front of each level.
pub fn asked_within() -> Vec<u8> {
    let ask = "input,1,Volts\ninputs,2,Lamp,a,b,c,d,e,f,g,h\n";
    let levels = |text: &str| text.repeat(MAX_LEVELS);
    [levels(&format!("{ask}if,0,eq,0\n")), ask.repeat(8), levels("else\nprint,a\nfi\n")]
        .concat()
        .into_bytes()
}
