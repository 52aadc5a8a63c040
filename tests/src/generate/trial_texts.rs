//! A text with nothing wrong is read as the numbers it was made of.

use super::random::Random;
use super::{file_numbers, texts, FileNumbers};
use crate::peer::ranges::LONGEST_FILE;

const TEXTS: u64 = 1_000;

#[test]
fn undamaged_texts_are_read() {
    for number in 0..TEXTS {
        let random = &mut Random::for_case(1, number);
        let numbers = file_numbers(random);
        let text = texts::text(random, &numbers, 0);
        if text.len() <= LONGEST_FILE {
            assert_eq!(FileNumbers::of_text(&text), Some(numbers));
        }
    }
}
