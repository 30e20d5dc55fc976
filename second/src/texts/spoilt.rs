//! Texts that are right up to some byte (02, request 6): cut off there and blank behind it, cut off
//! at the field's end, or with another byte in its place, in fields of every length.

use super::{spelling, Visit};
use crate::block::REAL_WIDTH;
use crate::dice::Dice;

/// How numbers begin that cannot end there, and how some end that may. A field with one of these at
/// its end lacks something, or nothing.
const STARTS: &[&str] = &[
    "",
    "+",
    "-",
    ".",
    "+.",
    "-.",
    "7",
    "-7",
    "7.",
    ".7",
    "7D",
    "7.E",
    ".7D",
    "7D+",
    "7.5E-",
    "-.7D+",
    "7D1",
    "7D12",
    "7.E+1",
    "-7.5D-12",
    "12345678",
    "0.1234567D",
];

/// What may stand in the next place: a byte of each sort, and bytes of no sort at all.
const NEXT: &[u8] = b" 0+-.DEde,O/:\t\0\x7F\xA0\xFF";

/// Every start in fields of every length: at the end, anywhere before it with blanks behind, and
/// then with one byte, of any sort, at each place among those blanks.
pub fn starts_in_every_place(_: &mut Dice, visit: &mut Visit) {
    for length in 1..=REAL_WIDTH {
        for start in STARTS.iter().filter(|start| start.len() <= length) {
            let room = length - start.len();
            for left in 0..=room {
                let text = format!("{:left$}{start}{:right$}", "", "", right = room - left);
                visit(text.as_bytes());
                if left > 0 && left < room && length > 8 {
                    continue;
                }
                for place in left + start.len()..length {
                    let next = NEXT[(place * 5 + left + length) % NEXT.len()];
                    let mut text = text.clone().into_bytes();
                    text[place] = next;
                    visit(&text);
                }
            }
        }
    }
}

/// Right spellings of both readings with any one byte of another sort.
pub fn one_byte_spoilt(dice: &mut Dice, visit: &mut Visit) {
    for turn in 0..20_000 {
        let mut text = match turn % 8 {
            0 => spelling::integer(dice),
            _ => spelling::moderate_real(dice),
        };
        let place = dice.size(0, text.len() - 1);
        text[place] = *dice.pick(NEXT);
        if dice.one_in(4) {
            text[place..].fill(b' ');
        }
        visit(&text);
    }
}
