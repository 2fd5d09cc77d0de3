//! The table of refusals has every number of the library once, with words and with what helps.

use desk::refusals::{said, REFUSALS};

#[test]
fn every_number_has_its_words() {
    let numbers: Vec<u8> = REFUSALS.iter().map(|row| row.0).collect();
    assert_eq!(numbers, (1..=24).collect::<Vec<u8>>());
    for (number, words, helps) in REFUSALS {
        assert!(words.len() > 10 && helps.len() > 20, "{number}");
        assert_eq!(said(number), (words, helps));
        assert_eq!(
            REFUSALS.iter().filter(|row| row.1 == words).count(),
            1,
            "{number}"
        );
    }
}
