//! Lists of answers: in range and out of it, too few and too many.

use model::generate;
use model::rng::Rng;

const FAR: [i32; 10] =
    [i32::MIN, i32::MIN + 1, -32_769, -1, 7, 8, 9, 32_768, i32::MAX - 1, i32::MAX];

pub fn answers(rng: &mut Rng) -> Vec<i32> {
    match rng.below(13) {
        0 => Vec::new(),
        1 => some(rng, 40, |rng| *rng.pick(&FAR)),
        2 => some(rng, 8, |rng| rng.next_u64() as i32),
        // In range of every question, and at times one that is not.
        3..=5 => some(rng, 600, |rng| rng.below(2) as i32),
        6 => some(rng, 600, |rng| if rng.once_in(30) { *rng.pick(&FAR) } else { 0 }),
        // Two wrong ones before each right one, and at times one fewer or more.
        7 => in_threes(rng),
        _ => generate::answers(rng),
    }
}

fn in_threes(rng: &mut Rng) -> Vec<i32> {
    let mut answers = Vec::new();
    let most = if rng.once_in(8) { 512 } else { 8 };
    for _ in 0..rng.between(0, most) {
        let wrong = if rng.once_in(12) { *rng.pick(&[0, 1, 3]) } else { 2 };
        answers.extend((0..wrong).map(|_| *rng.pick(&[-1, 8, i32::MIN, i32::MAX])));
        answers.push(rng.below(2) as i32);
    }
    let left = rng.below(3);
    answers.truncate(answers.len().saturating_sub(left));
    answers
}

fn some(rng: &mut Rng, most: usize, answer: impl Fn(&mut Rng) -> i32) -> Vec<i32> {
    let highest = if rng.once_in(4) { most } else { most.min(24) };
    (0..rng.between(0, highest)).map(|_| answer(rng)).collect()
}
