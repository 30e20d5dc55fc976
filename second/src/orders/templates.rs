//! Templates: valid headers whose n, accuracy and extremes have nothing to do with the
//! cells, in any hand, at times in the writer's own.

use crate::block::{HUNDREDTH, UNIT};
use crate::dice::Dice;
use crate::sheets::head::{self, Head};
use crate::sheets::shapes::small_size;
use crate::write;

/// Reals that a template may state as extremes, whatever its sheet is like.
const EXTREMES: [i64; 8] = [
    0,
    1,
    -1,
    -HUNDREDTH,
    12 * UNIT,
    32_767 * UNIT,
    123_456_789_012_345,
    -999_999_999 * UNIT,
];

pub fn head(dice: &mut Dice, columns: i64, rows: i64) -> Head {
    let mut head = head::head(dice, columns, rows);
    if dice.one_in(2) {
        head.numbers.stated_least = *dice.pick(&EXTREMES);
        head.numbers.stated_greatest = *dice.pick(&EXTREMES);
    }
    head
}

pub fn small_head(dice: &mut Dice) -> Head {
    let (columns, rows) = small_size(dice);
    head(dice, columns, rows)
}

pub fn block(dice: &mut Dice, head: &Head) -> Vec<u8> {
    let block = head.block(dice);
    if dice.one_in(5) {
        in_the_writers_hand(&block, head)
    } else {
        block
    }
}

/// Block 0 of a sheet of zeros, so that less of it is left to rewrite.
fn in_the_writers_hand(block: &[u8], head: &Head) -> Vec<u8> {
    let zeros = vec![0; head.cells()];
    let blocks = write::sheet_blocks(block, &zeros).expect("a valid header, and zeros");
    blocks[0].to_vec()
}
