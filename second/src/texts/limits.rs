//! Reals close to where an answer changes: the two limits of size, the count of
//! significant digits, and mantissas that a 64-bit number cannot hold.

use super::{spelling, Visit};
use crate::dice::Dice;

/// 1,000,000,000 and its neighbours, the difference standing in any later place.
pub fn near_the_greatest(dice: &mut Dice, visit: &mut Visit) {
    for _ in 0..60_000 {
        let places = dice.size(0, 12);
        let limit = 10_i128.pow(9 + places as u32);
        let near = limit + i128::from(dice.between(-12, 12));
        visit(&spelling::value(
            dice,
            near.to_string().as_bytes(),
            -(places as i64),
        ));
    }
}

/// Thirteen to eighteen digits between the outer non-zero ones, many of them zeros.
pub fn near_fifteen_digits(dice: &mut Dice, visit: &mut Visit) {
    for _ in 0..80_000 {
        let count = dice.size(13, 18);
        let mut digits = if dice.one_in(2) {
            dice.digits(count)
        } else {
            vec![b'0'; count]
        };
        digits[0] = *dice.pick(b"123456789");
        digits[count - 1] = *dice.pick(b"123456789");
        let power = dice.between(-10, 10 - count as i64);
        visit(&spelling::value(dice, &digits, power));
    }
}

/// Small numbers of units that are a billionth, or up to three places finer or coarser.
pub fn near_a_billionth(dice: &mut Dice, visit: &mut Visit) {
    for _ in 0..60_000 {
        let count = dice.size(1, 4);
        let digits = dice.digits(count);
        let power = dice.between(-12, -6);
        visit(&spelling::value(dice, &digits, power));
    }
}

/// Mantissas over 64 bits: round ones, with a point or without, that an exponent brings back into
/// range, and ones that would look small and good if their upper bits were lost.
pub fn past_sixty_four_bits(dice: &mut Dice, visit: &mut Visit) {
    for _ in 0..40_000 {
        let text = round_mantissa(dice);
        visit(&text);
    }
    for _ in 0..30_000 {
        let lost = 1_i128 << *dice.pick(&[31, 32, 53, 63, 64]);
        let seen = lost * i128::from(dice.between(1, 50_000)) + i128::from(dice.between(-9, 9));
        let power = dice.between(-25, 5);
        visit(&spelling::value(dice, seen.to_string().as_bytes(), power));
    }
}

fn round_mantissa(dice: &mut Dice) -> Vec<u8> {
    let count = dice.size(1, 16);
    let mut digits = dice.digits(count);
    let zeros = dice.size(20, 22) - count;
    digits.extend(vec![b'0'; zeros]);
    let mut text = dice.pick(&["", "", "", "-", "+"]).as_bytes().to_vec();
    if dice.one_in(3) {
        let place = dice.size(0, digits.len());
        digits.insert(place, b'.');
    }
    text.extend(digits);
    let room = 24_usize.saturating_sub(text.len());
    let tail = match room {
        0 | 1 => String::new(),
        2 => format!("{}{}", *dice.pick(&["D", "E"]), dice.size(0, 9)),
        3 => format!("{}-{}", *dice.pick(&["D", "E"]), dice.size(0, 9)),
        _ => format!("{}-{}", *dice.pick(&["D", "E"]), dice.size(8, 22)),
    };
    text.extend(tail.bytes().take(room));
    text
}

/// Zero mantissas under any sign, point and exponent.
pub fn zeros(dice: &mut Dice, visit: &mut Visit) {
    for _ in 0..30_000 {
        let count = dice.size(1, 20);
        let power = dice.between(-120, 120);
        visit(&spelling::value(dice, &vec![b'0'; count], power));
    }
}
