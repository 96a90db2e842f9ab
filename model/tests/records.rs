//! Walks and runs with their whole record. The inputs and the expected records
//! stand in src/cases/records.rs, tries.rs and steps.rs; a test for each group.

mod common;

use model::cases::{records, Source};

fn check_group(name: &str) {
    let group = records::GROUPS.iter().find(|group| group.0 == name);
    let (_, cases) = group.expect("a group of this name");
    for case in cases() {
        common::check_record(&case);
    }
}

macro_rules! tests_of_groups {
    ($($name:ident)*) => {
        $(#[test]
        fn $name() {
            check_group(stringify!($name));
        })*

        #[test]
        fn every_group_has_a_test() {
            let tried = [$(stringify!($name)),*];
            let all: Vec<&str> = records::GROUPS.iter().map(|group| group.0).collect();
            assert_eq!(all, tried);
        }
    };
}

/// The longest ones have the lengths that README.md states, and are as long as can be:
/// an instruction adds at most three C lines of nine texts of 64 bytes, two wrong answers
/// and a right one; a line of a guide three C lines of 7 bytes fewer than it has, and the same.
#[test]
fn lengths_of_the_longest() {
    let longest = records::GROUPS.iter().flat_map(|(_, cases)| cases());
    let lengths: Vec<_> = longest.map(|case| (case.transcript.len(), case.source)).collect();
    let most =
        |wanted| lengths.iter().filter(|(_, source)| *source == wanted).max_by_key(|of| of.0);
    let answers = 2 * "A,-2147483648\n".len() + "A,7\n".len();
    let c_line = "C".len() + 9 * ",".len() + 9 * 64 + "\n".len();
    assert_eq!(most(Source::Plate), Some(&(918_016, Source::Plate)));
    assert_eq!(918_016, 512 * (3 * c_line + answers));
    assert_eq!(most(Source::Guide), Some(&(54_784, Source::Guide)));
    assert_eq!(54_784, 3 * 16_384 + 512 * (answers - 3 * "inputs,".len()));
}

tests_of_groups! {
    outcomes choices comparisons registers_kept letters tries tries_at_each_point
    tries_of_each_question tries_and_blocks steps jumps longest_transcripts
}
