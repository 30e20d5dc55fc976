//! The many hands that write the same number: every text here fills its field and reads
//! back as the number given.

use crate::block::{INTEGER_WIDTH, UNIT};
use crate::dice::Dice;
use crate::number::decimals_of;
use crate::texts::spelling;

/// Right-justified, most often plain, at times with zeros or a sign before it.
pub fn integer(dice: &mut Dice, value: i64) -> Vec<u8> {
    let mut text = value.abs().to_string();
    let sign = match value {
        1.. => *dice.pick(&["", "", "", "", "", "+"]),
        0 => *dice.pick(&["", "", "", "", "-", "+"]),
        _ => "-",
    };
    let room = INTEGER_WIDTH.saturating_sub(text.len() + sign.len());
    if dice.one_in(8) {
        let zeros = dice.size(0, room);
        text.insert_str(0, &"0".repeat(zeros));
    }
    if text.len() + sign.len() <= INTEGER_WIDTH {
        text.insert_str(0, sign);
    }
    format!("{text:>INTEGER_WIDTH$}").into_bytes()
}

/// A number of billionths that a real can hold, in a field of `width` bytes.
pub fn real(dice: &mut Dice, billionths: i64, width: usize) -> Vec<u8> {
    let mut text = match dice.size(0, 5) {
        0 => standard(billionths, width),
        1 => plain(billionths),
        2 => without_point(dice, billionths, width),
        3 => as_on_old_tapes(billionths, width),
        _ => free(dice, billionths, width),
    };
    if text.len() > width {
        text = plain(billionths);
    }
    justified(dice, text, width)
}

/// Digits without zeros at either end, and the power of ten that makes them billionths.
fn digits_and_power(billionths: i64) -> (String, i64) {
    let all = billionths.unsigned_abs().to_string();
    let digits = all.trim_end_matches('0');
    if digits.is_empty() {
        return ("0".to_string(), 0);
    }
    (digits.to_string(), (all.len() - digits.len()) as i64 - 9)
}

fn minus(billionths: i64) -> &'static str {
    if billionths < 0 {
        "-"
    } else {
        ""
    }
}

/// As FORTRAN writes it: D24.15 in a wide field, E12.6 in a spacing.
fn standard(billionths: i64, width: usize) -> Vec<u8> {
    let (places, letter) = if width < 24 { (6, 'E') } else { (15, 'D') };
    let (digits, power) = digits_and_power(billionths);
    let exponent = match billionths {
        0 => 0,
        _ => power + digits.len() as i64,
    };
    let sign = minus(billionths);
    format!("{sign}0.{digits:0<places$}{letter}{exponent:+03}").into_bytes()
}

/// The same with `0.` left out: just as many digits as stand behind the point that is put in.
fn as_on_old_tapes(billionths: i64, width: usize) -> Vec<u8> {
    let (digits, _) = digits_and_power(billionths);
    if digits.len() > decimals_of(width) {
        return plain(billionths);
    }
    let mut text = standard(billionths, width);
    text.retain(|&byte| byte != b'.');
    text.remove(minus(billionths).len());
    text
}

/// No exponent, and a point also if nothing follows it: `30.` is 30 in a field of any width.
fn plain(billionths: i64) -> Vec<u8> {
    let (whole, fraction) = (
        billionths.unsigned_abs() / UNIT as u64,
        billionths.unsigned_abs() % UNIT as u64,
    );
    let text = format!("{}{whole}.{fraction:09}", minus(billionths));
    text.trim_end_matches('0').as_bytes().to_vec()
}

/// 30 is `30000000` or `3E7` in a spacing.
fn without_point(dice: &mut Dice, billionths: i64, width: usize) -> Vec<u8> {
    let (digits, power) = digits_and_power(billionths);
    let number = spelling::without_point(dice, digits.as_bytes(), power, width);
    [minus(billionths).as_bytes(), &number].concat()
}

/// Zeros at either end, a point anywhere, any exponent that makes up for it.
fn free(dice: &mut Dice, billionths: i64, width: usize) -> Vec<u8> {
    let (mut digits, mut power) = digits_and_power(billionths);
    if billionths == 0 {
        power = dice.between(-99, 99);
    }
    if dice.one_in(3) {
        digits.insert_str(0, &"0".repeat(dice.size(1, 6)));
    }
    if dice.one_in(3) {
        let zeros = dice.size(1, 6);
        digits.push_str(&"0".repeat(zeros));
        power -= zeros as i64;
    }
    let sign = match billionths {
        1.. => *dice.pick(&["", "+"]),
        0 => *dice.pick(&["", "+", "-"]),
        _ => "-",
    };
    let mut text = sign.as_bytes().to_vec();
    text.extend(spelling::unsigned(dice, digits.as_bytes(), power, width));
    text
}

/// Left, right or anywhere in the field.
pub(super) fn justified(dice: &mut Dice, text: Vec<u8>, width: usize) -> Vec<u8> {
    let room = width - text.len();
    let left = match dice.size(0, 3) {
        0 => 0,
        1 => dice.size(0, room),
        _ => room,
    };
    let mut field = vec![b' '; width];
    field[left..left + text.len()].copy_from_slice(&text);
    field
}
