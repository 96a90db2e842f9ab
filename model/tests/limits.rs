//! Every limit and every cause, at the limit and one on either side. The
//! inputs and their expected results stand in src/cases; a test for each group.

mod common;

use model::cases::{self, Case, OnlyWalked, Refused};
use model::vectors::Call;

fn check_group(name: &str) {
    let (_, cases) = groups().find(|group| group.0 == name).expect("a group of this name");
    for case in cases() {
        common::check(&case);
    }
}

fn groups() -> impl Iterator<Item = cases::Group> {
    cases::GROUPS.iter().copied().flatten().copied()
}

macro_rules! tests_of_groups {
    ($($name:ident)*) => {
        $(#[test]
        fn $name() {
            check_group(stringify!($name));
        })*

        #[test]
        fn every_group_has_a_test() {
            let tried = [$(stringify!($name)),*];
            let all: Vec<&str> = groups().map(|group| group.0).collect();
            assert_eq!(all, tried);
        }
    };
}

/// Every cause of every call is expected somewhere; 11 is in tests/lent.rs.
#[test]
fn every_cause_has_a_case() {
    let cases: Vec<Case> = groups().flat_map(|(_, cases)| cases()).collect();
    for call in Call::ALL {
        for &number in call.causes().iter().filter(|&&number| number != 11) {
            let found = cases.iter().any(|case| match case.expected {
                Refused(expected, _) => expected == number && case.source == call.source(),
                OnlyWalked => number == 10 && call == Call::Translate,
                _ => false,
            });
            assert!(found, "{} has no case of {number}", call.name());
        }
    }
}

tests_of_groups! {
    book_texts book_bytes book_counts book_repeats book_comes_first
    text_lengths line_bytes last_lf registers malformed_numbers options
    kinds kinds_of_one_source own_phrase_counts own_phrases_late own_phrases_repeated
    phrases_in_use
    operators levels else_and_fi open_ifs guide_instructions
    phrase_lines phrase_lines_at_limits phrase_lines_in_blocks skips_of_blocks
    skip_values skips_to_the_end listing_instructions
    book_places own_places places_of_both constants constants_outside
    guide_bytes listing_bytes longest_listing plate_bytes_written plate_bytes_read
    order_on_a_line order_of_lines order_at_the_last_instruction order_with_nesting
    plate_characters plate_text_lengths plate_own_phrases plate_counts plate_codes plate_texts
    plate_skips plate_filling plate_order
    plate_cuts
    letters_on_lines ill_formed_lines parted_letters letters_in_fields letters_in_own_phrases
    letters_in_order letters_at_limits
    letters_in_books bad_letters_in_books letter_lengths letters_of_phrases
    plate_letters plate_ill_formed plate_bytes plate_letter_lengths plate_codes_of_texts
    plate_letters_in_order plates_full_of_letters
}
