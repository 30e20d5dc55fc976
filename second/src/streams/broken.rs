//! Sheets with something wrong in a block, in what they state, or in the order of their
//! blocks. Some go on after their end too: what comes first is named.

use super::{joined, sent_on, some_plan};
use crate::block::{put, Record, BLOCK_LENGTH};
use crate::dice::Dice;
use crate::family::USGS;
use crate::scripts::accident;
use crate::sheets::aimed::{damaged_profile_block, misstate, replace, spoil_a_real, spoil_a_text};
use crate::sheets::damage::{damaged, fields_of, mistype_a_spot, post_field};
use crate::sheets::shapes::small_plan;
use crate::sheets::Sent;

pub fn header(dice: &mut Dice, _cells: usize) -> Vec<u8> {
    let plan = small_plan(dice);
    let mut blocks = plan.blocks(dice);
    match dice.size(0, 7) {
        0 => {
            let above = plan.head.columns + dice.between(1, 3);
            put(&mut blocks[0].bytes, 859, format!("{above:6}").as_bytes());
        }
        1 => spoil_a_real(dice, Record::Header, &mut blocks[0].bytes),
        2 => spoil_a_text(dice, &mut blocks[0].bytes),
        3 | 4 => replace(dice, fields_of(Record::Header), &mut blocks[0].bytes),
        _ => blocks[0].bytes = damaged(dice, &blocks[0]),
    }
    sent_on(dice, &blocks)
}

/// One block of a profile, or two: then only the first counts.
pub fn profiles(dice: &mut Dice, _cells: usize) -> Vec<u8> {
    let plan = some_plan(dice);
    let mut blocks = plan.blocks(dice);
    for _ in 0..*dice.pick(&[1, 1, 2]) {
        let number = a_profile_block(dice, &blocks);
        let sent = &mut blocks[number];
        match dice.size(0, 5) {
            0 | 1 => sent.bytes = damaged(dice, sent),
            2 if sent.record == Record::ProfileStart => {
                spoil_a_real(dice, sent.record, &mut sent.bytes)
            }
            2 if dice.one_in(2) => {
                let post = *dice.pick(&[b" 32768", b"-32768", b"999999"]);
                put(&mut sent.bytes, 1, post);
            }
            2 => replace(dice, &[post_field(sent.record, 0)], &mut sent.bytes),
            _ => sent.bytes = damaged_profile_block(dice, &plan.head.numbers, sent),
        }
    }
    sent_on(dice, &blocks)
}

/// Any block of a profile, every other time a further one if there is one.
fn a_profile_block(dice: &mut Dice, blocks: &[Sent]) -> usize {
    let of = |record| move |&number: &usize| blocks[number].record == record;
    let starts: Vec<usize> = (0..blocks.len()).filter(of(Record::ProfileStart)).collect();
    let rests: Vec<usize> = (0..blocks.len()).filter(of(Record::ProfileRest)).collect();
    if rests.is_empty() || dice.one_in(2) {
        *dice.pick(&starts)
    } else {
        *dice.pick(&rests)
    }
}

/// A record C with a wrong field, one too few, or one that block 0 did not promise.
pub fn statistics(dice: &mut Dice, _cells: usize) -> Vec<u8> {
    let mut plan = small_plan(dice);
    plan.head.numbers.accuracy = 1;
    let mut blocks = plan.blocks(dice);
    let last = blocks.len() - 1;
    match dice.size(0, 12) {
        0 => put(&mut blocks[0].bytes, 811, b"     0"),
        1 => blocks.truncate(last),
        2 => blocks[last].bytes = damaged(dice, &blocks[last]),
        3 | 4 => {
            let any = dice.size(61, BLOCK_LENGTH);
            let place = *dice.pick(&[61, any, BLOCK_LENGTH]);
            put(&mut blocks[last].bytes, place, b"0");
        }
        5 => {
            let first = *dice.pick(&[7, 13, 19, 25, 37, 43, 49, 55]);
            put(&mut blocks[last].bytes, first, b"    -1");
        }
        _ => replace(dice, fields_of(Record::Statistics), &mut blocks[last].bytes),
    }
    sent_on(dice, &blocks)
}

/// A stranger in one number of a sheet, of any record that there is, at any of its bytes.
pub fn mistyped(dice: &mut Dice, _cells: usize) -> Vec<u8> {
    let mut plan = some_plan(dice);
    plan.head.numbers.accuracy = 1;
    let mut blocks = plan.blocks(dice);
    // About as often as a record has sorts of numbers.
    let record = *dice.pick(&[
        Record::Header,
        Record::Header,
        Record::Header,
        Record::ProfileStart,
        Record::ProfileStart,
        Record::ProfileRest,
        Record::Statistics,
    ]);
    let of_record = |&number: &usize| blocks[number].record == record;
    let numbers: Vec<usize> = (0..blocks.len()).filter(of_record).collect();
    // Short profiles have no further block.
    let number = match numbers.is_empty() {
        true => 1,
        false => *dice.pick(&numbers),
    };
    let sent = &mut blocks[number];
    mistype_a_spot(dice, USGS, sent.record, &mut sent.bytes);
    sent_on(dice, &blocks)
}

pub fn closing(dice: &mut Dice, _cells: usize) -> Vec<u8> {
    let plan = some_plan(dice);
    let mut blocks = plan.blocks(dice);
    misstate(dice, &mut blocks);
    sent_on(dice, &blocks)
}

/// A block twice, left out, or changed with its neighbour; or the customer's accident
/// over a line without block numbers.
pub fn out_of_order(dice: &mut Dice, _cells: usize) -> Vec<u8> {
    if dice.one_in(3) {
        let plan = accident::plan(dice);
        let sixth = accident::sixth_block(&plan, 0);
        let mut blocks = plan.blocks(dice);
        blocks.insert(sixth, blocks[sixth].clone());
        return joined(&blocks);
    }
    let plan = some_plan(dice);
    let mut blocks = plan.blocks(dice);
    let number = dice.size(0, blocks.len() - 1);
    match dice.size(0, 2) {
        0 => blocks.insert(number, blocks[number].clone()),
        1 => drop(blocks.remove(number)),
        _ => blocks.swap(number, number.saturating_sub(1)),
    }
    joined(&blocks)
}

pub fn any_bytes(dice: &mut Dice, _cells: usize) -> Vec<u8> {
    let length = dice.size(1, 4 * BLOCK_LENGTH);
    (0..length).map(|_| dice.byte()).collect()
}
