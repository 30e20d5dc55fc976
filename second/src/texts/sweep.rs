//! Texts that are gone through in full, without chance.

use super::{Visit, ALPHABET, LONGEST_TEXT};
use crate::dice::Dice;
use crate::examples::{INTEGERS, INTEGER_BYTES, POINTLESS_REALS, REALS, REAL_BYTES};

/// Every example, alone and with every number of blanks on either side; those of a very byte, of
/// which many are among the others too, with blanks on one side.
pub fn padded_examples(_: &mut Dice, visit: &mut Visit) {
    for (text, _, _) in INTEGERS.iter().chain(REALS).chain(POINTLESS_REALS) {
        let room = LONGEST_TEXT.saturating_sub(text.len());
        for left in 0..=room {
            for right in 0..=room - left {
                visit(&padded(text, left, right));
            }
        }
    }
    for (text, _) in INTEGER_BYTES.iter().chain(REAL_BYTES) {
        for blanks in 0..=LONGEST_TEXT - text.len() {
            visit(&padded(text, blanks, 0));
            visit(&padded(text, 0, blanks));
        }
    }
}

fn padded(text: &[u8], left: usize, right: usize) -> Vec<u8> {
    [&vec![b' '; left], text, &vec![b' '; right]].concat()
}

/// Lengths 0 to 30 and the neighbourhood of lengths that are short if their upper
/// bytes are lost, each of one byte only and with one other byte at every place.
pub fn every_length(_: &mut Dice, visit: &mut Visit) {
    let folded = (250..290)
        .chain(510..540)
        .chain([1024, 4096 + 6, 65_535, 65_536]);
    for length in (0..=LONGEST_TEXT).chain(folded).chain(65_537..65_562) {
        for filler in [b' ', b'0', b'9', 0] {
            visit(&vec![filler; length]);
        }
        let places = (0..length.min(LONGEST_TEXT)).chain(length.checked_sub(1));
        for place in places {
            mark_one_place(length, place, visit);
        }
    }
}

fn mark_one_place(length: usize, place: usize, visit: &mut Visit) {
    for filler in [b' ', b'0', b'9'] {
        for mark in [b'1', b'.', b'-', b' ', b'D'] {
            let mut text = vec![filler; length];
            text[place] = mark;
            visit(&text);
        }
    }
}

/// All texts of up to two bytes, all of three and four bytes of the alphabet, and all
/// of five and six of its most telling bytes; and, for the very byte, all of up to six with one
/// byte of every sort that a form knows.
pub fn all_short_texts(_: &mut Dice, visit: &mut Visit) {
    let bytes: Vec<u8> = (0..=255).collect();
    for length in 0..=2 {
        all_of(&bytes, length, visit);
    }
    for length in 3..=4 {
        all_of(ALPHABET, length, visit);
    }
    for length in 5..=6 {
        all_of(b"09-.D ", length, visit);
    }
    for length in 1..=6 {
        all_of(b" +.7Dx", length, visit);
    }
}

fn all_of(letters: &[u8], length: usize, visit: &mut Visit) {
    let count = letters.len().pow(length as u32);
    let mut text = vec![0; length];
    for number in 0..count {
        let mut left = number;
        for byte in text.iter_mut() {
            *byte = letters[left % letters.len()];
            left /= letters.len();
        }
        visit(&text);
    }
}
