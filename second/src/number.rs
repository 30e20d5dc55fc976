//! The two field readings of document 01, "Number fields", done as with pencil and
//! paper: a real is two rows of digits, left and right of the point, and an exponent
//! moves the point one place at a time. Where no point is written, it is put in first
//! (02, request 4). No value is ever rounded or estimated. Which byte spoils a form
//! (02, request 6) is for very_byte.rs to find, by asking for the forms here.

use crate::kind::{OUT_OF_RANGE, TOO_FINE, WRONG_FORM, WRONG_LENGTH};
use crate::very_byte::{very_byte, Form};
use std::collections::VecDeque;

/// The kind of a field that reads well.
pub const FINE: u32 = 0;

const LONGEST_INTEGER: usize = 6;
const LONGEST_REAL: usize = 24;
/// A magnitude of 1,000,000,000 is the first with a tenth digit before its point.
const DIGITS_BEFORE_POINT: usize = 9;
/// A billionth is the ninth place after the point.
const DIGITS_AFTER_POINT: usize = 9;
const SIGNIFICANT_DIGITS: usize = 15;

/// What a reading says of a field.
#[derive(Clone, Copy, Debug, PartialEq)]
pub struct Reading {
    pub kind: u32,
    /// A real's is in billionths; 0 unless the kind is 0.
    pub value: i64,
    /// The byte of a field of wrong form that makes it so, counted from 1; 0 for every other
    /// kind (READINGS-02, 6.3).
    pub byte: u32,
}

impl Reading {
    pub fn kind_and_value(&self) -> (u32, i64) {
        (self.kind, self.value)
    }
}

pub fn integer(field: &[u8]) -> Reading {
    reading(field, read_integer(field), has_integer_form)
}

pub fn real(field: &[u8]) -> Reading {
    reading(field, read_real(field), has_real_form)
}

fn reading(field: &[u8], read: Result<i64, u32>, form: Form) -> Reading {
    let (kind, value) = match read {
        Ok(value) => (FINE, value),
        Err(kind) => (kind, 0),
    };
    let byte = match kind {
        WRONG_FORM => very_byte(field, form),
        _ => 0,
    };
    Reading { kind, value, byte }
}

// Length is judged before form (READINGS 5).
fn read_integer(field: &[u8]) -> Result<i64, u32> {
    if field.is_empty() || field.len() > LONGEST_INTEGER {
        return Err(WRONG_LENGTH);
    }
    let (negative, digits) = split_integer(field).ok_or(WRONG_FORM)?;
    Ok(with_sign(negative, number_of(digits)))
}

fn read_real(field: &[u8]) -> Result<i64, u32> {
    if field.is_empty() || field.len() > LONGEST_REAL {
        return Err(WRONG_LENGTH);
    }
    let parts = split_real(field).ok_or(WRONG_FORM)?;
    let mut decimal = parts.decimal(field.len());
    decimal.move_point(parts.exponent);
    decimal.drop_outer_zeros();
    // Order of 01 and READINGS 6: 7 on the exact value, then 8. Zero has no digits
    // left here and so passes both (READINGS 7).
    if decimal.whole.len() > DIGITS_BEFORE_POINT {
        return Err(OUT_OF_RANGE);
    }
    if decimal.fraction.len() > DIGITS_AFTER_POINT {
        return Err(TOO_FINE);
    }
    if decimal.significant_digits() > SIGNIFICANT_DIGITS {
        return Err(TOO_FINE);
    }
    Ok(decimal.billionths())
}

/// Whether an integer may be spelled like this; length and value have no say in it.
pub fn has_integer_form(field: &[u8]) -> bool {
    split_integer(field).is_some()
}

/// The same of a real: one that is too large or too fine has right form.
pub fn has_real_form(field: &[u8]) -> bool {
    split_real(field).is_some()
}

/// The form of an integer: whether it is negative, and its digits; None if wrong.
fn split_integer(field: &[u8]) -> Option<(bool, &[u8])> {
    let mut text = Text { rest: field };
    text.skip_blanks();
    let negative = text.take_sign();
    let digits = text.take_digits();
    // Blanks after the digits are wrong form: integers stand only to the right.
    (!digits.is_empty() && text.at_end()).then_some((negative, digits))
}

/// How many of its digits stand behind the point that a real without one is given: the second
/// number of the descriptor that a field of this many bytes has, E12.6, F7.4 or D24.15; one read
/// alone may have other lengths, and they go with the last. What the field holds has no say in
/// it, and all its bytes count, blanks too (READINGS-02, 4.1).
pub fn decimals_of(length: usize) -> usize {
    match length {
        12 => 6,
        7 => 4,
        _ => 15,
    }
}

/// A real as it is spelled.
struct Parts<'a> {
    negative: bool,
    before: &'a [u8],
    /// The digits behind the point; None where no point stands.
    behind: Option<&'a [u8]>,
    exponent: i32,
}

/// The form of a real; None if wrong.
fn split_real(field: &[u8]) -> Option<Parts<'_>> {
    let mut text = Text { rest: field };
    text.skip_blanks();
    let negative = text.take_sign();
    let before = text.take_digits();
    let behind = text.take_one_of(b".").then(|| text.take_digits());
    // Form knows nothing of a point that is put in (READINGS-02, 4.3).
    if before.is_empty() && behind.unwrap_or_default().is_empty() {
        return None;
    }
    let exponent = take_exponent(&mut text)?;
    text.skip_blanks();
    text.at_end().then_some(Parts {
        negative,
        before,
        behind,
        exponent,
    })
}

impl Parts<'_> {
    /// The number before its exponent, in a field of so many bytes.
    fn decimal(&self, length: usize) -> Decimal {
        match self.behind {
            Some(behind) => Decimal::new(self.negative, self.before, behind),
            None => Decimal::with_point_put_in(self.negative, self.before, decimals_of(length)),
        }
    }
}

/// An exponent that is not there is 0; one of wrong form is None (READINGS 3).
fn take_exponent(text: &mut Text) -> Option<i32> {
    if !text.take_one_of(b"DE") {
        return Some(0);
    }
    let negative = text.take_sign();
    let digits = text.take_digits();
    if digits.is_empty() || digits.len() > 2 {
        return None;
    }
    Some(with_sign(negative, number_of(digits)) as i32)
}

/// What of a field has not been read yet.
struct Text<'a> {
    rest: &'a [u8],
}

impl<'a> Text<'a> {
    fn at_end(&self) -> bool {
        self.rest.is_empty()
    }

    // Only byte 32 is a blank (READINGS 1).
    fn skip_blanks(&mut self) {
        while self.take_one_of(b" ") {}
    }

    /// Passes a sign if there is one; true for a minus.
    fn take_sign(&mut self) -> bool {
        self.take_one_of(b"-") || {
            self.take_one_of(b"+");
            false
        }
    }

    fn take_digits(&mut self) -> &'a [u8] {
        let all = self.rest;
        while self.take_one_of(b"0123456789") {}
        &all[..all.len() - self.rest.len()]
    }

    fn take_one_of(&mut self, wanted: &[u8]) -> bool {
        let found = self.rest.first().is_some_and(|byte| wanted.contains(byte));
        if found {
            self.rest = &self.rest[1..];
        }
        found
    }
}

/// A decimal number as it is written: its digits, as characters, around the point.
struct Decimal {
    negative: bool,
    whole: VecDeque<u8>,
    fraction: VecDeque<u8>,
}

impl Decimal {
    fn new(negative: bool, whole: &[u8], fraction: &[u8]) -> Decimal {
        Decimal {
            negative,
            whole: whole.iter().copied().collect(),
            fraction: fraction.iter().copied().collect(),
        }
    }

    /// Zeros fill up too few digits; then the point goes before the last `decimals` of them.
    fn with_point_put_in(negative: bool, digits: &[u8], decimals: usize) -> Decimal {
        let missing = decimals.saturating_sub(digits.len());
        let filled = [&vec![b'0'; missing], digits].concat();
        let (whole, fraction) = filled.split_at(filled.len() - decimals);
        Decimal::new(negative, whole, fraction)
    }

    /// Times ten to the power of `places`.
    fn move_point(&mut self, places: i32) {
        for _ in 0..places {
            let digit = self.fraction.pop_front().unwrap_or(b'0');
            self.whole.push_back(digit);
        }
        for _ in places..0 {
            let digit = self.whole.pop_back().unwrap_or(b'0');
            self.fraction.push_front(digit);
        }
    }

    /// Removes the zeros that change nothing: leading the whole part, ending the fraction.
    fn drop_outer_zeros(&mut self) {
        while self.whole.front() == Some(&b'0') {
            self.whole.pop_front();
        }
        while self.fraction.back() == Some(&b'0') {
            self.fraction.pop_back();
        }
    }

    // Counted on the value alone, inner zeros included (READINGS 8).
    fn significant_digits(&self) -> usize {
        let digits: Vec<u8> = self.whole.iter().chain(&self.fraction).copied().collect();
        let first = digits.iter().position(|&digit| digit != b'0');
        let last = digits.iter().rposition(|&digit| digit != b'0');
        match (first, last) {
            (Some(first), Some(last)) => last - first + 1,
            _ => 0,
        }
    }

    fn billionths(&self) -> i64 {
        let mut digits: Vec<u8> = self.whole.iter().chain(&self.fraction).copied().collect();
        digits.resize(self.whole.len() + DIGITS_AFTER_POINT, b'0');
        with_sign(self.negative, number_of(&digits))
    }
}

/// The number that at most 18 digits spell.
fn number_of(digits: &[u8]) -> i64 {
    digits
        .iter()
        .fold(0, |number, digit| number * 10 + i64::from(digit - b'0'))
}

fn with_sign(negative: bool, magnitude: i64) -> i64 {
    if negative {
        -magnitude
    } else {
        magnitude
    }
}
