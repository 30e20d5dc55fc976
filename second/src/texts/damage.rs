//! Valid texts with one byte changed, put in, taken out or exchanged with the next.

use super::{spelling, Visit, ALPHABET};
use crate::dice::Dice;

/// Neighbours, in the table of characters, of the bytes that have a meaning, those with
/// the upper bit set, and other marks a typist may leave.
const STRANGERS: &[u8] = b"/:,*CFcf!_\x1F\x7F\xB0\xB9\xAB\xAD\xAE\xC4\xC5\xFF\n\r";

pub fn damaged_integers(dice: &mut Dice, visit: &mut Visit) {
    for _ in 0..600 {
        let text = spelling::integer(dice);
        change_every_byte(dice, &text, visit);
    }
}

pub fn damaged_reals(dice: &mut Dice, visit: &mut Visit) {
    for _ in 0..500 {
        let text = spelling::moderate_real(dice);
        change_every_byte(dice, &text, visit);
    }
}

fn change_every_byte(dice: &mut Dice, text: &[u8], visit: &mut Visit) {
    for place in 0..text.len() {
        let mut damaged = text.to_vec();
        let random = [dice.byte(), dice.byte(), dice.byte()];
        for &byte in ALPHABET.iter().chain(STRANGERS).chain(&random) {
            damaged[place] = byte;
            visit(&damaged);
        }
    }
}

pub fn longer_or_shorter(dice: &mut Dice, visit: &mut Visit) {
    for turn in 0..2_000 {
        let text = if turn % 2 == 0 {
            spelling::integer(dice)
        } else {
            spelling::moderate_real(dice)
        };
        for place in 0..text.len() {
            shift_one_byte(dice, &text, place, visit);
        }
    }
}

fn shift_one_byte(dice: &mut Dice, text: &[u8], place: usize, visit: &mut Visit) {
    let mut shorter = text.to_vec();
    shorter.remove(place);
    visit(&shorter);
    let mut longer = text.to_vec();
    longer.insert(place, *dice.pick(ALPHABET));
    visit(&longer);
    let mut doubled = text.to_vec();
    doubled.insert(place, text[place]);
    visit(&doubled);
    let mut exchanged = text.to_vec();
    exchanged.swap(place, (place + 1) % text.len());
    visit(&exchanged);
}
