//! Scripts that are bad in each of the ways there are, after none, some or all of a
//! sheet's deliveries; and a few that stop just short of being bad.

use super::line::Line;
use crate::dice::Dice;
use crate::replay::{Script, MOST_BYTES, MOST_CELLS};
use crate::sheets::shapes::small_plan;

pub fn bad_script(dice: &mut Dice) -> Script {
    match dice.size(0, 9) {
        0 => too_short_for_a_grid(dice),
        1 => too_many_cells(dice),
        _ => bad_after_deliveries(dice),
    }
}

fn too_short_for_a_grid(dice: &mut Dice) -> Script {
    let mut script = Script::new(dice.size(0, 20_000) as u32);
    script.bytes.truncate(dice.size(0, 3));
    script
}

fn too_many_cells(dice: &mut Dice) -> Script {
    let plan = small_plan(dice);
    let any = dice.size(15_001, 70_000) as u32;
    let cells = *dice.pick(&[MOST_CELLS + 1, any, 65_536, 1 << 31, u32::MAX]);
    let mut line = Line::with_grid(dice, &plan, cells);
    line.cells = plan.cells() as u32;
    let sent = dice.size(0, line.blocks.len());
    line.send_blocks(0..sent);
    line.script
}

fn bad_after_deliveries(dice: &mut Dice) -> Script {
    let plan = small_plan(dice);
    let mut line = Line::open(dice, &plan);
    let sent = dice.size(0, line.blocks.len());
    line.send_blocks(0..sent);
    let (cells, number) = (line.cells, sent as u32);
    let mut script = line.script;
    match dice.size(0, 4) {
        0 | 1 => end_inside_a_delivery(dice, &mut script, cells, number),
        2 => lend_more_than_there_is(dice, &mut script, cells, number),
        3 => name_too_many_bytes(dice, &mut script, cells, number),
        _ => script.deliver(cells, number, &vec![b' '; MOST_BYTES as usize]),
    }
    script
}

/// In its numbers, in its bytes, or just before its last byte.
fn end_inside_a_delivery(dice: &mut Dice, script: &mut Script, cells: u32, number: u32) {
    let before = script.bytes.len();
    let length = *dice.pick(&[1, 1024, 1024, 4096]);
    script.deliver(cells, number, &vec![b' '; length]);
    let any = dice.size(1, 11 + length);
    let part = *dice.pick(&[1, 4, 7, 8, 11, 12, 11 + length, any]);
    script.bytes.truncate(before + part.min(11 + length));
}

fn lend_more_than_there_is(dice: &mut Dice, script: &mut Script, cells: u32, number: u32) {
    let lent = *dice.pick(&[cells + 1, cells + 256, cells + 65_536, 1 << 31, u32::MAX]);
    script.deliver(lent, number, &[b' '; 1024]);
    more_deliveries(dice, script, cells);
}

fn name_too_many_bytes(dice: &mut Dice, script: &mut Script, cells: u32, number: u32) {
    let any = dice.size(4_097, 9_000) as u32;
    let length = *dice.pick(&[MOST_BYTES + 1, any, 65_536 + 1024, u32::MAX]);
    script.announce(cells, number, length);
    let there = (length as usize).min(9_000);
    script.bytes.extend(vec![b' '; there]);
    more_deliveries(dice, script, cells);
}

/// What follows a bad place is not looked at.
fn more_deliveries(dice: &mut Dice, script: &mut Script, cells: u32) {
    for number in 0..dice.size(0, 3) as u32 {
        script.deliver(cells, number, &[b' '; 1024]);
    }
}
