//! Inputs for the lister, family by family: what comes over its standard input. Each is
//! made from the seed and its own number alone.

mod broken;
mod ends;
pub mod shown;
mod whole;

use crate::block::BLOCK_LENGTH;
use crate::dice::Dice;
use crate::sheets::shapes::long_or_small_plan;
use crate::sheets::{Plan, Sent};
use crate::turns::{self, Made};

/// Makes a stream for a lister that lends this many cells.
type Maker = fn(&mut Dice, usize) -> Vec<u8>;
type Family = turns::Family<Maker>;

/// Each with how many of every hundred streams are of it.
pub const FAMILIES: &[Family] = &[
    Family::of("whole sheets", 5, whole::small),
    Family::of("low ground", 5, whole::low_ground),
    Family::of("long profiles", 5, whole::long),
    Family::of("wide sheets", 3, whole::wide),
    Family::of("around the cells lent", 9, whole::around_the_cells_lent),
    Family::of("as the writer sends them", 4, whole::as_sent),
    Family::of("cut after a block", 6, ends::cut_after_a_block),
    Family::of("cut inside a block", 5, ends::cut_inside_a_block),
    Family::of("more after the end", 7, ends::more_after_the_end),
    Family::of("record A damaged", 9, broken::header),
    Family::of("profiles damaged", 12, broken::profiles),
    Family::of("record C damaged", 6, broken::statistics),
    Family::of("a number mistyped", 13, broken::mistyped),
    Family::of("closing rules", 7, broken::closing),
    Family::of("blocks out of order", 3, broken::out_of_order),
    Family::of("any bytes", 1, broken::any_bytes),
];

/// Stream `number` of the run with this seed, for a lister that lends `cells`.
pub fn make(seed: u64, number: usize, cells: usize) -> Made {
    turns::made(FAMILIES, seed, number, |make, dice| make(dice, cells))
}

fn some_plan(dice: &mut Dice) -> Plan {
    long_or_small_plan(dice, 2)
}

fn joined(blocks: &[Sent]) -> Vec<u8> {
    let bytes = blocks.iter().map(|block| block.bytes.as_slice());
    bytes.collect::<Vec<_>>().concat()
}

fn stream_of(dice: &mut Dice, plan: &Plan) -> Vec<u8> {
    joined(&plan.blocks(dice))
}

/// All blocks, and every fourth time more than all.
fn sent_on(dice: &mut Dice, blocks: &[Sent]) -> Vec<u8> {
    let mut bytes = joined(blocks);
    if dice.one_in(4) {
        bytes.extend(tail(dice, blocks));
    }
    bytes
}

/// What may follow a sheet's last block: blocks, a part of one, or both.
fn tail(dice: &mut Dice, blocks: &[Sent]) -> Vec<u8> {
    let mut tail = Vec::new();
    let (whole, part) = *dice.pick(&[(1, false), (2, false), (0, true), (1, true)]);
    for _ in 0..whole {
        tail.extend(some_block(dice, blocks));
    }
    if part {
        let block = some_block(dice, blocks);
        let any = dice.size(1, BLOCK_LENGTH - 1);
        tail.extend(&block[..*dice.pick(&[1, 2, 512, BLOCK_LENGTH - 1, any])]);
    }
    tail
}

/// One of the sheet's own, blanks, or what cannot be any record.
fn some_block(dice: &mut Dice, blocks: &[Sent]) -> Vec<u8> {
    let own = dice.pick(blocks).bytes.clone();
    let last = blocks[blocks.len() - 1].bytes.clone();
    let others = [own, last, vec![b' '; BLOCK_LENGTH], vec![0; BLOCK_LENGTH]];
    dice.pick(&others).clone()
}
