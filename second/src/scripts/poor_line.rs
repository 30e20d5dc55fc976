//! Blocks early, late, repeated, damaged, cut, of another place or of another sheet,
//! with the right block sent after them.

use super::line::Line;
use crate::dice::Dice;
use crate::replay::Script;
use crate::sheets::damage::damaged;
use crate::sheets::shapes::{long_plan, small_plan};
use crate::sheets::Plan;

pub fn small_sheet(dice: &mut Dice) -> Script {
    let plan = small_plan(dice);
    over_a_poor_line(dice, &plan, 60)
}

pub fn long_profiles(dice: &mut Dice) -> Script {
    let plan = long_plan(dice);
    over_a_poor_line(dice, &plan, 30)
}

/// Before each block, mishaps as long as a roll of a hundred stays within `often`; at
/// the end a few more, when the sheet is complete.
pub fn over_a_poor_line(dice: &mut Dice, plan: &Plan, often: i64) -> Script {
    let mut line = Line::open(dice, plan);
    let count = line.blocks.len();
    for number in 0..count {
        while dice.between(1, 100) <= often {
            mishap(dice, &mut line, number);
        }
        line.send_block(number);
    }
    for _ in 0..dice.size(0, 4) {
        mishap(dice, &mut line, count);
    }
    line.script
}

/// One thing that goes wrong while block `next` is awaited.
fn mishap(dice: &mut Dice, line: &mut Line, next: usize) {
    let last = line.blocks.len() - 1;
    let due = line.blocks[next.min(last)].clone();
    let other = line.blocks[dice.size(0, last)].bytes.clone();
    match dice.size(0, 9) {
        0 => line.send(next + dice.size(1, 3), &other),
        1 => line.send(
            (next + 1).min(last),
            &line.blocks[(next + 1).min(last)].bytes.clone(),
        ),
        2 => line.send(dice.size(0, next), &other),
        3 => line.send_block(next.saturating_sub(1)),
        4..=6 => line.send(next, &damaged(dice, &due)),
        7 => line.send(next, &other),
        8 => cut_or_run_on(dice, line, next, &due.bytes),
        _ => lend_too_little(dice, line, next, &due.bytes),
    }
}

/// A block that the line cut, or that ran into the next.
fn cut_or_run_on(dice: &mut Dice, line: &mut Line, next: usize, block: &[u8]) {
    let any = dice.size(0, 4096);
    let length = *dice.pick(&[0, 1, 512, 1023, 1025, 2048, any]);
    let bytes: Vec<u8> = block.iter().copied().cycle().take(length).collect();
    let number = dice.size(next.saturating_sub(1), next + 1);
    line.send(number, &bytes);
}

fn lend_too_little(dice: &mut Dice, line: &mut Line, next: usize, block: &[u8]) {
    let any = dice.size(0, line.cells as usize) as u32;
    let lent = *dice.pick(&[0, line.need.saturating_sub(1), any]);
    line.send_lent(lent.min(line.cells), next as u32, block);
}

/// Two sheets of one size under the same numbers; each delivery is of either.
pub fn two_sheets(dice: &mut Dice) -> Script {
    let plan = small_plan(dice);
    let mut twin = plan.clone();
    for run in &mut twin.runs {
        run.posts.reverse();
    }
    let strange = small_plan(dice);
    let mut line = Line::open(dice, &plan);
    let others = [twin.blocks(dice), strange.blocks(dice)];
    for number in 0..line.blocks.len() {
        for other in &others {
            if let (Some(sent), true) = (other.get(number), dice.one_in(3)) {
                line.send(number, &sent.bytes);
            }
        }
        line.send_block(number);
    }
    line.script
}
