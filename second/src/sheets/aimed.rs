//! Damage aimed at one rule: a profile's fields, posts and place, and the stated extremes.

use super::canadian::damaged_header;
use super::damage::{damaged, fields_of, mistype_a_spot, nudge, post_field, Field};
use super::{put, Sent};
use crate::block::{Record, BLOCK_LENGTH, HUNDREDTH, INTEGER_WIDTH, REAL_WIDTH, UNIT};
use crate::dice::Dice;
use crate::family::CANADIAN;
use crate::profile::{POSTS_OF_FIRST_BLOCK, POSTS_OF_FURTHER_BLOCK};
use crate::record_a::Header;

/// A block, most often of a profile, with some of its fields or posts replaced, moved or shifted.
pub fn damaged_profile_block(dice: &mut Dice, header: &Header, sent: &Sent) -> Vec<u8> {
    let mut block = sent.bytes.clone();
    if dice.one_in(6) {
        mistype_a_spot(dice, header.family, sent.record, &mut block);
        return block;
    }
    match sent.record {
        Record::Header if header.family == CANADIAN => return damaged_header(dice, &block),
        Record::ProfileStart => damage_start(dice, header, &mut block),
        Record::ProfileRest if dice.one_in(2) => {
            let any = dice.size(0, POSTS_OF_FURTHER_BLOCK - 1);
            replace(dice, &[post_field(sent.record, any)], &mut block);
        }
        _ => return damaged(dice, sent),
    }
    block
}

/// A wrong place alone, or together with a fault that is judged before or after it: a
/// loader that keeps anything of such a block goes wrong with the right one.
fn damage_start(dice: &mut Dice, header: &Header, block: &mut [u8]) {
    let (columns, rows) = (header.columns().count(), header.rows().count());
    let (eastward, northward) = (
        (25, header.x_spacing, columns),
        (49, header.y_spacing, rows),
    );
    let choice = dice.size(0, 8);
    if choice <= 4 {
        move_along(dice, eastward, block);
    }
    if choice == 4 || choice == 5 {
        move_along(dice, northward, block);
    }
    match choice {
        1 | 6 => replace(dice, fields_of(Record::ProfileStart), block),
        2 | 7 => {
            let last = (POSTS_OF_FIRST_BLOCK - 1).min(rows as usize);
            let any = dice.size(0, last);
            replace(dice, &[post_field(Record::ProfileStart, any)], block);
        }
        3 => nudge(dice, block, 97, UNIT),
        8 => put_without_point(dice.size(0, POINTLESS_TURNS - 1), block),
        _ => {}
    }
}

/// For a profile's reals, which have fifteen decimals where they have no point: too large, too
/// fine, and two that only some rules are against.
const POINTLESS: [&str; 6] = ["1D24", "-1D+24", "1D5", "-7D-9", "1D20", "1D12"];
const PROFILE_REALS: usize = 5;

/// Each of these in each of the reals of a profile's first block, in turn.
pub const POINTLESS_TURNS: usize = POINTLESS.len() * PROFILE_REALS;

pub fn put_without_point(turn: usize, block: &mut [u8]) {
    let first = 25 + turn % PROFILE_REALS * REAL_WIDTH;
    let text = POINTLESS[turn / PROFILE_REALS % POINTLESS.len()];
    put(block, first, format!("{text:>REAL_WIDTH$}").as_bytes());
}

/// Some columns or rows away, on the lattice or a hair beside it.
fn move_along(dice: &mut Dice, (first, spacing, count): (usize, i64, i64), block: &mut [u8]) {
    let any = dice.between(0, count);
    let places = *dice.pick(&[0, 1, 1, any, count]);
    let beside = *dice.pick(&[0, 0, 0, 0, 1, 1000]);
    nudge(dice, block, first, places * spacing + beside);
}

/// One of these fields with one of its telling texts, or mistyped.
pub fn replace(dice: &mut Dice, fields: &[Field], block: &mut [u8]) {
    dice.pick(fields).spoil(dice, block);
}

/// Makes one or more of the stated extremes wrong; answers the first block touched.
pub fn misstate(dice: &mut Dice, blocks: &mut [Sent]) -> usize {
    let starts: Vec<usize> = (0..blocks.len())
        .filter(|&number| blocks[number].record == Record::ProfileStart)
        .collect();
    let any = *dice.pick(&starts);
    let last = *starts.last().expect("every sheet has a profile");
    let places = [(any, 97), (any, 121), (last, 121), (0, 739), (0, 763)];
    let mut touched = blocks.len();
    for _ in 0..*dice.pick(&[1, 1, 1, 2, 3]) {
        let &(number, byte) = dice.pick(&places);
        let by = *dice.pick(&[1, HUNDREDTH, UNIT, 40_000 * UNIT]);
        nudge(dice, &mut blocks[number].bytes, byte, by);
        touched = touched.min(number);
    }
    touched
}

/// A value too large or too fine in a real whose value counts, which it does not in
/// bytes 169 to 528 of record A.
pub fn spoil_a_real(dice: &mut Dice, record: Record, block: &mut [u8]) {
    let any_value = |first: usize| record == Record::Header && (169..=528).contains(&first);
    let reals = fields_of(record)
        .iter()
        .filter(|field| field.width > INTEGER_WIDTH);
    let judged = reals.filter(|field| !any_value(field.first));
    let judged: Vec<&Field> = judged.collect();
    let field = dice.pick(&judged);
    // Without a point these are too large or too fine in a field of either width.
    let text = *dice.pick(&[
        "1.D+9",
        "-1.D9",
        "1.D-10",
        ".0000000001",
        "1.5D-9",
        "1D24",
        "-1D+30",
        "1D-4",
        "-5D-9",
    ]);
    let text = format!("{text:>width$}", width = field.width);
    put(block, field.first, text.as_bytes());
}

/// A byte that no text may hold, in either text of record A.
pub fn spoil_a_text(dice: &mut Dice, block: &mut [u8]) {
    let (before, after) = (dice.size(1, 144), dice.size(865, BLOCK_LENGTH));
    let place = *dice.pick(&[1, 144, before, 865, BLOCK_LENGTH, after]);
    put(block, place, &[*dice.pick(b"az\0\t\n\x1F\x7F\x80\xFF")]);
}
