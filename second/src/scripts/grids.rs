//! Grids lent too short, block numbers and lengths of every size, and no delivery at all.

use super::line::Line;
use crate::dice::Dice;
use crate::replay::{Script, MOST_CELLS};
use crate::sheets::damage::damaged;
use crate::sheets::plan;
use crate::sheets::shapes::small_plan;

/// Each block first with fewer cells than the sheet needs, together with whatever is
/// judged before that and after it; some sheets fit no grid of a script.
pub fn lent_short(dice: &mut Dice) -> Script {
    let sheet = if dice.one_in(4) {
        plan(dice, 123, 122)
    } else {
        small_plan(dice)
    };
    let need = sheet.cells() as u32;
    let any = dice.size(0, need as usize) as u32;
    let cells = *dice.pick(&[need, need, need + 1, need - 1, any]);
    let mut line = Line::with_grid(dice, &sheet, cells.min(MOST_CELLS));
    let count = line.blocks.len();
    for number in 0..count.min(40) {
        for _ in 0..dice.size(0, 3) {
            send_short(dice, &mut line, number);
        }
        line.send_block(number);
    }
    let again = line.blocks[count - 1].bytes.clone();
    line.send_lent(0, count as u32, &again);
    line.script
}

fn send_short(dice: &mut Dice, line: &mut Line, next: usize) {
    let most = line.need.saturating_sub(1).min(line.cells);
    let any = dice.size(0, most as usize) as u32;
    let lent = *dice.pick(&[most, most, any, 0]);
    let sent = line.blocks[next].clone();
    let next = next as u32;
    match dice.size(0, 5) {
        0 => line.send_lent(lent, next.saturating_sub(1), &sent.bytes),
        1 => line.send_lent(lent, next + 1, &sent.bytes),
        2 => line.send_lent(lent, next, &sent.bytes[..1023]),
        3 => line.send_lent(lent, next, &damaged(dice, &sent)),
        _ => line.send_lent(lent, next, &sent.bytes),
    }
}

/// Numbers that equal the next one if their upper bits are lost, and the largest there are.
pub fn numbers_and_lengths(dice: &mut Dice) -> Script {
    let sheet = small_plan(dice);
    let mut line = Line::open(dice, &sheet);
    for number in 0..line.blocks.len() {
        let sent = line.blocks[number].clone();
        for _ in 0..dice.size(0, 5) {
            send_oddly(dice, &mut line, number as u32, &sent.bytes);
        }
        line.send_block(number);
    }
    let count = line.blocks.len() as u32;
    let last = line.blocks[count as usize - 1].clone();
    for _ in 0..6 {
        send_oddly(dice, &mut line, count, &last.bytes);
    }
    line.script
}

fn send_oddly(dice: &mut Dice, line: &mut Line, next: u32, block: &[u8]) {
    let any = dice.roll() as u32;
    let number = *dice.pick(&[
        next,
        next + 1,
        next.saturating_sub(1),
        0,
        next + 256,
        next + 65_536,
        next + (1 << 31),
        26_626,
        26_627,
        u32::MAX,
        any,
    ]);
    let length = *dice.pick(&[1024, 1024, 1024, 0, 1, 1023, 1025, 2047, 2048, 4095, 4096]);
    let bytes: Vec<u8> = block.iter().copied().cycle().take(length).collect();
    line.send_lent(line.cells, number, &bytes);
}

pub fn no_deliveries(dice: &mut Dice) -> Script {
    let any = dice.size(0, MOST_CELLS as usize) as u32;
    Script::new(*dice.pick(&[0, 1, any, MOST_CELLS]))
}
