//! The accident of the customer's letter: the line drops, the sixth block of a profile is
//! sent again, and a loader that takes it twice moves all posts behind it 170 rows north.

use super::line::Line;
use crate::dice::Dice;
use crate::profile::{POSTS_OF_FIRST_BLOCK, POSTS_OF_FURTHER_BLOCK};
use crate::replay::Script;
use crate::sheets::{plan_with_length, Plan};

pub const THE_CUSTOMERS_ACCIDENT: &str = "the customer's accident";

/// A profile of at least eight blocks, so that posts follow the block sent twice; it may
/// be any profile of the sheet.
pub fn plan(dice: &mut Dice) -> Plan {
    let length = *dice.pick(&[1201, 1201, 1400, 2048]);
    let columns = dice.between(1, 3);
    plan_with_length(dice, columns, length, length)
}

/// The number of the sixth block of profile `place`, counted from 0. All profiles of
/// such a sheet have the same number of blocks.
pub fn sixth_block(plan: &Plan, place: usize) -> usize {
    let posts = plan.runs[place].posts.len();
    let blocks_of_one = 1 + (posts - POSTS_OF_FIRST_BLOCK).div_ceil(POSTS_OF_FURTHER_BLOCK);
    1 + place * blocks_of_one + 5
}

pub fn the_customers_accident(dice: &mut Dice) -> Script {
    let plan = plan(dice);
    let sixth = sixth_block(&plan, dice.size(0, plan.runs.len() - 1));
    let mut line = Line::open(dice, &plan);
    let count = line.blocks.len();
    line.send_blocks(0..sixth);
    drop_the_line(dice, &mut line, sixth);
    line.send_blocks(sixth + 1..count);
    line.script
}

/// The sixth block twice, in the ways a sender may repeat it.
fn drop_the_line(dice: &mut Dice, line: &mut Line, sixth: usize) {
    let bytes = line.blocks[sixth].bytes.clone();
    let cut = dice.size(0, bytes.len() - 1);
    match dice.size(0, 4) {
        // The line dropped after the block: it was taken, but the sender does not know.
        0 => line.send_block(sixth),
        // The line dropped inside the block: a part came, then all of it, twice.
        1 => {
            line.send(sixth, &bytes[..cut]);
            line.send_block(sixth);
        }
        // The sender goes back a block too far.
        2 => {
            line.send_block(sixth);
            line.send_block(sixth - 1);
        }
        // The sender starts again from block 0.
        3 => line.send_blocks(0..sixth + 1),
        // The sender counts the repeated block as the next one: it is the next block for
        // all that can be seen, until a closing rule or a count finds it out.
        _ => {
            line.send_block(sixth);
            line.send(sixth + 1, &bytes);
        }
    }
    line.send_block(sixth);
}
