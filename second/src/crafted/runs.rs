//! Runs to sessions that no line brought: late blocks, those awaited one after the other, at
//! times a damaged one, and none at all; twisted in number, length, session and grid.

use super::sessions::{BEGUN, CLOSED, FRESH, INSIDE};
use super::{alter, awaited, blocks, families, filled_grid, sessions};
use crate::block::{put, BLOCK_LENGTH};
use crate::desk::Delivery;
use crate::dice::Dice;
use crate::kept::{place, Kept, NUMBERS};
use crate::record_a::MOST;
use crate::sheets::aimed::damaged_profile_block;
use crate::sheets::damage::STRANGERS;
use crate::sheets::head;
use crate::spots::telling_bytes;

const RUNS: usize = 20_000;
const SESSIONS_OF_A_STAGE: usize = 4;
/// Of 2048 profiles with 2048 posts, and a record C: taken never passes it.
pub const MOST_BLOCKS: usize = 26_626;
/// Where the stated extremes stand, of the sheet and of the open profile.
const STATED: std::ops::Range<usize> = 13..15;
const OPEN_STATED: std::ops::Range<usize> = 31..33;

pub fn all(dice: &mut Dice, visit: &mut dyn FnMut(Delivery)) {
    for turn in 0..RUNS {
        let mut kept = match turn % 5 {
            0 => families::canadian(dice),
            _ => sessions::any(dice),
        };
        let mut run = blocks_due(dice, &mut kept);
        bring_late_ones(dice, &mut run);
        for twist in TWISTS {
            if dice.one_in(9) {
                twist(dice, &kept, &mut run);
            }
        }
        visit(run);
    }
    for stage in [FRESH, BEGUN, INSIDE, CLOSED] {
        mistype_the_block_due(dice, stage, visit);
    }
    visit(the_longest(dice));
}

/// A stranger in every sort of number, at the first byte, at the last and between, of the block that
/// sessions of this stage await; at times behind late ones.
fn mistype_the_block_due(dice: &mut Dice, stage: usize, visit: &mut dyn FnMut(Delivery)) {
    for _ in 0..SESSIONS_OF_A_STAGE {
        let mut kept = sessions::of_stage(dice, stage);
        // So that there is a record C to come.
        kept.header.accuracy = kept.taken.min(1);
        let (due, sent) = awaited(dice, &mut kept);
        for byte in telling_bytes(kept.header.family, sent.record) {
            let mut run = due.clone();
            put(&mut run.block, byte, &[*dice.pick(STRANGERS)]);
            bring_late_ones(dice, &mut run);
            visit(run);
        }
    }
}

/// Every block that a sheet can have comes once more, and then one that it has not.
fn the_longest(dice: &mut Dice) -> Delivery {
    let header = head::head(dice, MOST, MOST).numbers;
    let mut kept = sessions::before_the_last_profile(dice, &header);
    kept.closed += 1;
    kept.header.accuracy = 1;
    kept.finished = 1;
    kept.taken = MOST_BLOCKS as i64;
    Delivery {
        numbers: kept.numbers().to_vec(),
        number: 0,
        block: vec![b' '; (MOST_BLOCKS + 1) * BLOCK_LENGTH],
        grid: Vec::new(),
        room: 3,
    }
}

/// One to four blocks, each what the session awaits once those before it are taken.
fn blocks_due(dice: &mut Dice, kept: &mut Kept) -> Delivery {
    let (mut run, sent) = awaited(dice, kept);
    if dice.one_in(6) {
        run.block = damaged_profile_block(dice, &kept.header, &sent);
    }
    for _ in 0..dice.size(0, 3) {
        let after = run.leaves_by_run().numbers;
        let mut then = Kept::of(&after);
        let sent = blocks::awaited(dice, &mut then);
        carry_back(kept, &then, &mut run.numbers);
        run.block.extend(match dice.one_in(4) {
            true => damaged_profile_block(dice, &then.header, &sent),
            false => sent.bytes,
        });
    }
    run
}

/// A block that closes a profile moves the extremes that its session states. The session from
/// which the run starts must state them too, unless the run itself brings them.
fn carry_back(kept: &Kept, then: &Kept, numbers: &mut [i64]) {
    let stated = then.numbers();
    if kept.taken > 0 {
        numbers[STATED].copy_from_slice(&stated[STATED]);
    }
    if kept.has_open() && kept.closed == then.closed {
        numbers[OPEN_STATED].copy_from_slice(&stated[OPEN_STATED]);
    }
}

/// Up to three in front, of any bytes; at times nothing else.
fn bring_late_ones(dice: &mut Dice, run: &mut Delivery) {
    let late = dice.size(0, 3).min(run.number as usize);
    run.number -= late as u32;
    let mut bytes = Vec::new();
    for _ in 0..late {
        bytes.resize(bytes.len() + BLOCK_LENGTH, *dice.pick(b"\xFF 0"));
    }
    if late == 0 || !dice.one_in(5) {
        bytes.append(&mut run.block);
    }
    run.block = bytes;
}

type Twist = fn(&mut Dice, &Kept, &mut Delivery);

const TWISTS: [Twist; 7] = [
    |_, _, run| run.block.clear(),
    odd_length,
    another_number,
    one_number_altered,
    |dice, _, run| run.numbers[place::FAMILY] = *dice.pick(&alter::families()),
    fewer_cells,
    |dice, _, run| run.numbers.truncate(dice.size(0, NUMBERS - 1)),
];

fn odd_length(dice: &mut Dice, _: &Kept, run: &mut Delivery) {
    let all = run.block.len();
    let any = dice.size(0, 5 * BLOCK_LENGTH);
    let length = *dice.pick(&[1, 1023, 1025, 2047, 2049, all + 1, all + 1023, any]);
    run.block.resize(length, b' ');
}

/// Blocks missing before it, or a number so great that it leaves none for the blocks behind.
fn another_number(dice: &mut Dice, _: &Kept, run: &mut Delivery) {
    let (next, near) = (run.number, dice.size(0, 4) as u32);
    run.number = *dice.pick(&[
        next + 1,
        next + near,
        next | 1 << 31,
        u32::MAX,
        u32::MAX - near,
    ]);
}

fn one_number_altered(dice: &mut Dice, kept: &Kept, run: &mut Delivery) {
    let place = dice.size(0, NUMBERS - 1);
    run.numbers[place] = *dice.pick(&alter::telling(kept, place));
}

fn fewer_cells(dice: &mut Dice, _: &Kept, run: &mut Delivery) {
    let all = run.grid.len();
    let any = dice.size(0, all);
    let length = *dice.pick(&[0, any, all.saturating_sub(1)]);
    run.grid = filled_grid(dice, length);
}
