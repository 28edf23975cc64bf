//! Amounts as a clerk writes them, and texts that are none.

use compare::draws::Draws;
use compare::{plain, proved};

/// How many of the compared texts were amounts, and how many were none.
#[derive(Default)]
struct Tally {
    amounts: usize,
    refused: usize,
}

impl Tally {
    fn compare(&mut self, text: &[u8], six: bool) {
        let answer = proved::amount(text, six);
        assert_eq!(
            answer,
            plain::amount(text, six),
            "{:?}, six decimals: {six}",
            text.escape_ascii().to_string()
        );
        if answer.is_some() {
            self.amounts += 1;
        } else {
            self.refused += 1;
        }
    }

    fn compare_both(&mut self, text: &[u8]) {
        self.compare(text, false);
        self.compare(text, true);
    }
}

/// Every text of at most two bytes.
#[test]
fn every_short_text() {
    let mut tally = Tally::default();
    tally.compare_both(b"");
    for first in 0..=u8::MAX {
        tally.compare_both(&[first]);
        for second in 0..=u8::MAX {
            tally.compare_both(&[first, second]);
        }
    }
    // ten texts of one digit and a hundred of two, each with four and with six decimals
    assert_eq!(tally.amounts, 220);
}

/// Every text of at most eight of these marks; the slash and the colon stand next to the digits.
#[test]
fn every_text_of_a_few_marks() {
    let mut tally = Tally::default();
    let mut texts = vec![Vec::new()];
    for _ in 0..8 {
        texts = texts
            .iter()
            .flat_map(|text| {
                b"079./:".iter().map(move |mark| {
                    let mut longer = text.clone();
                    longer.push(*mark);
                    longer
                })
            })
            .collect();
        for text in &texts {
            tally.compare_both(text);
        }
    }
    assert!(
        tally.amounts > 50_000 && tally.refused > 1_000_000,
        "{}, {}",
        tally.amounts,
        tally.refused
    );
}

/// Every number of digits before and behind the point, up to two past the limits, at the least and at the largest digits.
#[test]
fn every_length() {
    let mut tally = Tally::default();
    for whole in 0..=14 {
        for digit in ["0", "1", "9"] {
            tally.compare_both(digit.repeat(whole).as_bytes());
            for decimals in 0..=8 {
                let text = format!("{}.{}", digit.repeat(whole), digit.repeat(decimals));
                tally.compare_both(text.as_bytes());
            }
        }
    }
    // twelve lengths before the point; behind it none, or one to four and one to six
    assert_eq!(tally.amounts, 12 * 3 * (5 + 7));
}

#[test]
fn texts_that_are_no_amount() {
    let mut tally = Tally::default();
    let long = "1".repeat(100_000);
    for text in [
        ".", "..", "1.", ".5", "1..5", "1.2.3", "1,5", "1 000", " 1", "1 ", "1\n", "\t1", "+1",
        "-1", "1.-5", "1.+5", "--1", "1e3", "1E3", "1.5e3", "0x10", "1_000", "inf", "nan", "$1",
        "1$", "٣", "１", "1.٣", "1．5", "½", "²", "1\0", "\0 1", "one", &long,
    ] {
        tally.compare_both(text.as_bytes());
    }
    tally.compare_both(b"\xff");
    tally.compare_both(b"1\xff");
    tally.compare_both(b"1.5\x80");
    assert_eq!(tally.amounts, 0);
}

#[test]
fn drawn_amounts() {
    let mut draws = Draws::seeded(41);
    let mut tally = Tally::default();
    for _ in 0..300_000 {
        tally.compare(&draws.amount(4), false);
        tally.compare(&draws.amount(6), true);
    }
    assert_eq!(tally.refused, 0);
}

#[test]
fn damaged_amounts() {
    let mut draws = Draws::seeded(42);
    let mut tally = Tally::default();
    for _ in 0..500_000 {
        let places = 1 + draws.below(7);
        let mut text = draws.amount(places);
        text = draws.damaged(text);
        tally.compare_both(&text);
    }
    assert!(
        tally.amounts > 100_000 && tally.refused > 100_000,
        "{}, {}",
        tally.amounts,
        tally.refused
    );
}
