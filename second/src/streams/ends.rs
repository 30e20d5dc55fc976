//! Sheets that end too soon, and sheets after whose end more comes.

use super::{joined, some_plan, tail};
use crate::block::BLOCK_LENGTH;
use crate::dice::Dice;
use crate::sheets::Sent;

fn some_sheet(dice: &mut Dice) -> Vec<Sent> {
    some_plan(dice).blocks(dice)
}

/// No block, block 0 alone, all but the last, or any number between.
pub fn cut_after_a_block(dice: &mut Dice, _cells: usize) -> Vec<u8> {
    let blocks = some_sheet(dice);
    let last = blocks.len() - 1;
    let any = dice.size(0, last);
    let kept = *dice.pick(&[0, 1.min(last), last, any]);
    joined(&blocks[..kept])
}

/// In the first block, in the last, or in any; by little, by much, or all but one byte.
pub fn cut_inside_a_block(dice: &mut Dice, _cells: usize) -> Vec<u8> {
    let blocks = some_sheet(dice);
    let last = blocks.len() - 1;
    let (number, byte) = (dice.size(0, last), dice.size(1, BLOCK_LENGTH - 1));
    let whole = *dice.pick(&[0, last, number]);
    let part = *dice.pick(&[1, 144, 1000, BLOCK_LENGTH - 1, byte]);
    let mut bytes = joined(&blocks);
    bytes.truncate(whole * BLOCK_LENGTH + part);
    bytes
}

pub fn more_after_the_end(dice: &mut Dice, _cells: usize) -> Vec<u8> {
    let blocks = some_sheet(dice);
    let mut bytes = joined(&blocks);
    bytes.extend(tail(dice, &blocks));
    bytes
}
