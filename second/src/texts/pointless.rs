//! Reals without a point (02, request 4): fields of every length, as many digits as they have room
//! for, every exponent there is.

use super::Visit;
use crate::block::{REAL_WIDTH, SPACING_WIDTH};
use crate::corner_text::SECONDS_WIDTH;
use crate::dice::Dice;
use crate::number::decimals_of;

/// How often every length, exponent and count of digits is gone through.
const PASSES: usize = 3;

pub fn every_length_and_exponent(dice: &mut Dice, visit: &mut Visit) {
    let exponents = exponents();
    let mut turn = 0;
    for _ in 0..PASSES {
        for width in 1..=REAL_WIDTH {
            for exponent in &exponents {
                for count in 1..=width.saturating_sub(exponent.len()) {
                    turn += 1;
                    let mut number = DIGITS[turn % DIGITS.len()](dice, count);
                    number.extend(exponent.bytes());
                    visit(&placed(dice, number, width));
                }
            }
        }
    }
}

/// None, and from -99 to 99 with either letter, with and without a plus, of one digit and two.
fn exponents() -> Vec<String> {
    let mut all = vec![String::new()];
    for letter in ["D", "E"] {
        for sign in ["", "+", "-"] {
            all.extend((0..=9).map(|size| format!("{letter}{sign}{size}")));
            all.extend((0..=99).map(|size| format!("{letter}{sign}{size:02}")));
        }
    }
    all
}

type Digits = fn(&mut Dice, usize) -> Vec<u8>;

/// So many digits: round, as few as can be, as many, with zeros before, between or behind.
const DIGITS: [Digits; 7] = [
    |dice, count| significant(dice, 1, count - 1),
    |dice, count| {
        let last = significant(dice, 1, 0);
        [vec![b'0'; count - 1], last].concat()
    },
    |_, count| vec![b'9'; count],
    |dice, count| dice.digits(count),
    |dice, count| significant(dice, count, 0),
    |dice, count| {
        let zeros = dice.size(0, count - 1);
        significant(dice, count - zeros, zeros)
    },
    |dice, count| {
        let (before, behind) = (dice.size(0, count - 1), dice.size(0, count - 1));
        let behind = behind.min(count - 1 - before);
        let digits = significant(dice, count - before - behind, behind);
        [vec![b'0'; before], digits].concat()
    },
];

/// So many digits whose outer ones are not zero, then zeros.
fn significant(dice: &mut Dice, count: usize, zeros: usize) -> Vec<u8> {
    let mut digits = match dice.one_in(2) {
        true => dice.digits(count),
        false => vec![b'0'; count],
    };
    digits[0] = *dice.pick(b"123456789");
    digits[count - 1] = *dice.pick(b"123456789");
    digits.extend(vec![b'0'; zeros]);
    digits
}

/// A sign if there is room for one, and blanks in all the room that is left.
fn placed(dice: &mut Dice, mut number: Vec<u8>, width: usize) -> Vec<u8> {
    let sign = *dice.pick(&["", "", "-", "+"]);
    if number.len() < width {
        number.splice(0..0, sign.bytes());
    }
    let room = width - number.len();
    let any = dice.size(0, room);
    let left = *dice.pick(&[0, room, any]);
    [vec![b' '; left], number, vec![b' '; room - left]].concat()
}

/// The first digit that is not zero at the place of 1,000,000,000, or the last at that of a
/// billionth, or up to two places beside it.
pub fn at_the_limits(dice: &mut Dice, visit: &mut Visit) {
    for _ in 0..120_000 {
        let any = dice.size(1, REAL_WIDTH);
        let width = *dice.pick(&[any, any, SECONDS_WIDTH, SPACING_WIDTH, REAL_WIDTH]);
        let count = dice.size(1, width);
        let any = dice.size(0, count - 1);
        let zeros = *dice.pick(&[0, any]);
        let outer = count - zeros;
        let last = match dice.one_in(2) {
            true => dice.between(-11, -7),
            false => dice.between(7, 11) - (outer as i64 - 1),
        };
        let left = last - zeros as i64 + decimals_of(width) as i64;
        let mut number = significant(dice, outer, zeros);
        if left != 0 || dice.one_in(8) {
            number.extend(exponent(dice, left).bytes());
        }
        if number.len() <= width && left.abs() <= 99 {
            visit(&placed(dice, number, width));
        }
    }
}

fn exponent(dice: &mut Dice, power: i64) -> String {
    let letter = *dice.pick(&["D", "E"]);
    let sign = match power {
        0.. => *dice.pick(&["", "+"]),
        _ => "-",
    };
    let size = power.abs();
    match dice.one_in(2) {
        true => format!("{letter}{sign}{size}"),
        false => format!("{letter}{sign}{size:02}"),
    }
}
