//! Numbers as the writer writes them (01, "Writing"): of all the texts that read as a
//! number, the one that goes into an outgoing block.

use crate::block::{put, INTEGER_WIDTH, REAL_WIDTH, SPACING_WIDTH};

/// Digits after the point of a real, and of a real in one of the three spacings.
const REAL_DIGITS: usize = 15;
const SPACING_DIGITS: usize = 6;

pub fn integer(value: i64) -> Vec<u8> {
    right_justified(value.to_string(), INTEGER_WIDTH)
}

pub fn real(billionths: i64) -> Vec<u8> {
    let text = scientific(billionths, REAL_DIGITS, 'D');
    right_justified(text, REAL_WIDTH)
}

pub fn spacing(billionths: i64) -> Vec<u8> {
    let text = scientific(billionths, SPACING_DIGITS, 'E');
    right_justified(text, SPACING_WIDTH)
}

fn scientific(billionths: i64, places: usize, letter: char) -> String {
    let minus = if billionths < 0 { "-" } else { "" };
    let digits = billionths.unsigned_abs().to_string();
    // 10 is written 0.1 × 10², and is a number of eleven digits when billionths are counted.
    let exponent = match billionths {
        0 => 0,
        _ => digits.len() as i64 - 9,
    };
    let (kept, dropped) = digits.split_at(digits.len().min(places));
    // No number of a sheet needs more digits than there are places (READINGS 34).
    assert!(dropped.bytes().all(|digit| digit == b'0'), "{billionths}");
    format!("{minus}0.{kept:0<places$}{letter}{exponent:+03}")
}

fn right_justified(text: String, width: usize) -> Vec<u8> {
    assert!(text.len() <= width, "{text} is wider than its field");
    format!("{text:>width$}").into_bytes()
}

/// Fields side by side, the first of them at byte `first`.
pub fn put_integers(block: &mut [u8], first: usize, values: &[i64]) {
    for (place, &value) in values.iter().enumerate() {
        put(block, first + place * INTEGER_WIDTH, &integer(value));
    }
}

pub fn put_reals(block: &mut [u8], first: usize, billionths: &[i64]) {
    for (place, &value) in billionths.iter().enumerate() {
        put(block, first + place * REAL_WIDTH, &real(value));
    }
}

pub fn put_spacings(block: &mut [u8], first: usize, billionths: &[i64]) {
    for (place, &value) in billionths.iter().enumerate() {
        put(block, first + place * SPACING_WIDTH, &spacing(value));
    }
}
