//! Valid spellings of integers and reals. A spelling of a real may still be out of the
//! limits of its value; that is for the readings to say.

use crate::block::{INTEGER_WIDTH, REAL_WIDTH, SPACING_WIDTH};
use crate::corner_text::SECONDS_WIDTH;
use crate::dice::Dice;
use crate::number::decimals_of;

/// Blanks, perhaps a sign, then digits to the end.
pub fn integer(dice: &mut Dice) -> Vec<u8> {
    let width = dice.size(1, INTEGER_WIDTH);
    let mut number = if width == 1 { Vec::new() } else { sign(dice) };
    let count = dice.size(1, width - number.len());
    number.extend(dice.digits(count));
    let mut text = vec![b' '; width - number.len()];
    text.extend(number);
    text
}

/// A real of a size the limits allow, most often with few enough digits too.
pub fn moderate_real(dice: &mut Dice) -> Vec<u8> {
    in_a_field(dice, |dice, width| {
        let count = dice.size(1, 16);
        let digits = dice.digits(count);
        let power = dice.between(-9, 9 - count as i64);
        padded_with_zeros(dice, digits, power, width)
    })
}

/// A real with any digits, any point and any exponent.
pub fn wild_real(dice: &mut Dice) -> Vec<u8> {
    in_a_field(dice, |dice, width| {
        let count = dice.size(1, 22);
        let power = dice.between(-99, 99);
        let digits = dice.digits(count);
        written(dice, &digits, power, width)
    })
}

/// `digits` × ten to the `power`, spelled at random, inside 24 bytes with blanks about it.
pub fn value(dice: &mut Dice, digits: &[u8], power: i64) -> Vec<u8> {
    in_a_field(dice, |dice, width| {
        padded_with_zeros(dice, digits.to_vec(), power, width)
    })
}

/// How often a spelling is tried in the width first thought of, and how often in all.
const TRIES: usize = 4;
const MOST_TRIES: usize = 20;

/// What a text without a point says depends on its field, so the field's width comes first.
/// Tries until a spelling fits, at last in the widest field; one that never does is kept as it is.
fn in_a_field(dice: &mut Dice, mut spell: impl FnMut(&mut Dice, usize) -> Vec<u8>) -> Vec<u8> {
    let any = dice.size(1, REAL_WIDTH);
    let mut width = *dice.pick(&[
        any,
        any,
        SECONDS_WIDTH,
        SPACING_WIDTH,
        REAL_WIDTH,
        REAL_WIDTH,
    ]);
    let mut text = spell(dice, width);
    for tried in 1..MOST_TRIES {
        if text.len() <= width {
            break;
        }
        if tried == TRIES {
            width = REAL_WIDTH;
        }
        text = spell(dice, width);
    }
    // With a point the width says nothing, and there may be no blanks at all.
    let as_it_is = text.contains(&b'.') && dice.one_in(3);
    if text.len() >= width || as_it_is {
        return text;
    }
    match dice.one_in(4) {
        true => zeros_before(text, width),
        false => blanks_about(dice, text, width),
    }
}

/// Zeros before the digits, or after them with the power made smaller: the same value.
fn padded_with_zeros(
    dice: &mut Dice,
    mut digits: Vec<u8>,
    mut power: i64,
    width: usize,
) -> Vec<u8> {
    if dice.one_in(3) {
        let zeros = dice.size(1, 8);
        digits.splice(0..0, vec![b'0'; zeros]);
    }
    if dice.one_in(3) {
        let zeros = dice.size(1, 8);
        digits.extend(vec![b'0'; zeros]);
        power -= zeros as i64;
    }
    written(dice, &digits, power, width)
}

fn written(dice: &mut Dice, digits: &[u8], power: i64, width: usize) -> Vec<u8> {
    let mut text = sign(dice);
    text.extend(unsigned(dice, digits, power, width));
    text
}

/// Digits with the point at any place or none, and the exponent that is left over in a field
/// of `width` bytes.
pub fn unsigned(dice: &mut Dice, digits: &[u8], power: i64, width: usize) -> Vec<u8> {
    if dice.one_in(3) {
        return without_point(dice, digits, power, width);
    }
    let places = dice.size(0, digits.len());
    let (whole, fraction) = digits.split_at(digits.len() - places);
    let mut text = [whole, b".", fraction].concat();
    text.extend(exponent(dice, power + places as i64));
    text
}

/// Digits alone, and the exponent that makes up for the point put in before the last of them
/// (02, request 4); every other time zeros in its place, where there is room for them.
pub fn without_point(dice: &mut Dice, digits: &[u8], power: i64, width: usize) -> Vec<u8> {
    let mut text = digits.to_vec();
    let mut left = power + decimals_of(width) as i64;
    let room = width as i64 - text.len() as i64;
    if (1..=room).contains(&left) && dice.one_in(2) {
        text.extend(vec![b'0'; left as usize]);
        left = 0;
    }
    text.extend(exponent(dice, left));
    text
}

/// An exponent past two digits cannot be spelled and is cut to the last one that can.
fn exponent(dice: &mut Dice, power: i64) -> Vec<u8> {
    let power = power.clamp(-99, 99);
    if power == 0 && dice.one_in(2) {
        return Vec::new();
    }
    let mut text = vec![*dice.pick(b"DE")];
    if power < 0 || power == 0 && dice.one_in(3) {
        text.push(b'-');
    } else if dice.one_in(2) {
        text.push(b'+');
    }
    let size = power.abs();
    let digits = if dice.one_in(2) {
        format!("{size:02}")
    } else {
        size.to_string()
    };
    text.extend(digits.bytes());
    text
}

fn sign(dice: &mut Dice) -> Vec<u8> {
    dice.pick(&["", "", "-", "+"]).bytes().collect()
}

/// As many zeros between sign and digits as the field has room for.
fn zeros_before(mut text: Vec<u8>, width: usize) -> Vec<u8> {
    let zeros = vec![b'0'; width - text.len()];
    let signs = usize::from(matches!(text[0], b'+' | b'-'));
    text.splice(signs..signs, zeros);
    text
}

/// Left, right or anywhere in the field.
fn blanks_about(dice: &mut Dice, number: Vec<u8>, width: usize) -> Vec<u8> {
    let blanks = width - number.len();
    let left = match dice.size(0, 2) {
        0 => 0,
        1 => blanks,
        _ => dice.size(0, blanks),
    };
    let mut text = vec![b' '; left];
    text.extend(number);
    text.extend(vec![b' '; blanks - left]);
    text
}
