//! Field texts to compare two readings on, family by family. The size of each family
//! is fixed, so that every seed gives well over a million texts.

mod damage;
mod limits;
mod pointless;
pub mod shown;
pub mod spelling;
mod spoilt;
mod sweep;

use crate::dice::Dice;

/// What is done with a text once it is made.
pub type Visit<'a> = dyn FnMut(&[u8]) + 'a;

pub struct Family {
    pub name: &'static str,
    pub make: fn(&mut Dice, &mut Visit),
}

/// Every byte that a number field may hold, and those most easily mistaken for one.
pub const ALPHABET: &[u8] = b"0123456789+-.DEde \t\0\xA0";

pub const FAMILIES: &[Family] = &[
    Family {
        name: "examples, padded",
        make: sweep::padded_examples,
    },
    Family {
        name: "every length",
        make: sweep::every_length,
    },
    Family {
        name: "all short texts",
        make: sweep::all_short_texts,
    },
    Family {
        name: "valid integers",
        make: valid_integers,
    },
    Family {
        name: "valid reals",
        make: valid_reals,
    },
    Family {
        name: "near 1,000,000,000",
        make: limits::near_the_greatest,
    },
    Family {
        name: "near 15 digits",
        make: limits::near_fifteen_digits,
    },
    Family {
        name: "near a billionth",
        make: limits::near_a_billionth,
    },
    Family {
        name: "past 64 bits",
        make: limits::past_sixty_four_bits,
    },
    Family {
        name: "zeros",
        make: limits::zeros,
    },
    Family {
        name: "without a point, all through",
        make: pointless::every_length_and_exponent,
    },
    Family {
        name: "without a point, at the limits",
        make: pointless::at_the_limits,
    },
    Family {
        name: "damaged integers",
        make: damage::damaged_integers,
    },
    Family {
        name: "damaged reals",
        make: damage::damaged_reals,
    },
    Family {
        name: "starts in every place",
        make: spoilt::starts_in_every_place,
    },
    Family {
        name: "one byte spoilt",
        make: spoilt::one_byte_spoilt,
    },
    Family {
        name: "longer or shorter",
        make: damage::longer_or_shorter,
    },
    Family {
        name: "random bytes",
        make: random_bytes,
    },
    Family {
        name: "random alphabet",
        make: random_alphabet,
    },
];

const LONGEST_TEXT: usize = 30;

fn valid_integers(dice: &mut Dice, visit: &mut Visit) {
    for _ in 0..250_000 {
        visit(&spelling::integer(dice));
    }
}

fn valid_reals(dice: &mut Dice, visit: &mut Visit) {
    for _ in 0..250_000 {
        visit(&spelling::moderate_real(dice));
    }
    for _ in 0..100_000 {
        visit(&spelling::wild_real(dice));
    }
}

fn random_bytes(dice: &mut Dice, visit: &mut Visit) {
    for turn in 0..62_000 {
        let length = turn % (LONGEST_TEXT + 1);
        let text: Vec<u8> = (0..length).map(|_| dice.byte()).collect();
        visit(&text);
    }
}

fn random_alphabet(dice: &mut Dice, visit: &mut Visit) {
    for turn in 0..124_000 {
        let length = turn % (LONGEST_TEXT + 1);
        let text: Vec<u8> = (0..length).map(|_| *dice.pick(ALPHABET)).collect();
        visit(&text);
    }
}
