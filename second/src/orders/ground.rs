//! Cells that a sheet can hold, column by column, with voids in every place.

use crate::dice::Dice;
use crate::meaning::VOID_CELL;
use crate::profile::VOID_POST;
use crate::sheets::head::Head;
use crate::sheets::posts;

/// One sheet's cells, each column by itself.
pub fn cells(dice: &mut Dice, head: &Head) -> Vec<i32> {
    let mut cells = Vec::new();
    for _ in 0..head.columns {
        cells.extend(column(dice, head));
    }
    cells
}

fn column(dice: &mut Dice, head: &Head) -> Vec<i32> {
    let mut cells = solid(dice, head);
    let rows = cells.len();
    let (low, high) = (dice.size(0, rows), dice.size(0, rows));
    match dice.size(0, 9) {
        0 => cells[..low].fill(VOID_CELL),
        1 => cells[high..].fill(VOID_CELL),
        2 | 3 => {
            cells[..low.min(high)].fill(VOID_CELL);
            cells[low.max(high)..].fill(VOID_CELL);
        }
        4 | 5 => cells[low.min(high)..low.max(high)].fill(VOID_CELL),
        6 => cells.fill(VOID_CELL),
        _ => {}
    }
    cells
}

/// Ground as posts have it, with the voids that are in it anyway.
fn solid(dice: &mut Dice, head: &Head) -> Vec<i32> {
    let step = head.numbers.step();
    let posts = posts::ground(dice, head.rows).into_iter();
    posts.map(|post| cell(post, step)).collect()
}

fn cell(post: i64, step: i64) -> i32 {
    if post == VOID_POST {
        VOID_CELL
    } else {
        (post * step) as i32
    }
}

/// Columns that are filled from some row on, `length` rows in all; between the first and
/// the last of them there may be voids.
pub fn cells_of_length(dice: &mut Dice, head: &Head, length: i64) -> Vec<i32> {
    let mut cells = Vec::new();
    for _ in 0..head.columns {
        let south = dice.size(0, (head.rows - length) as usize);
        let north = south + length as usize - 1;
        let mut column = solid(dice, head);
        column[..south].fill(VOID_CELL);
        column[north + 1..].fill(VOID_CELL);
        for end in [south, north] {
            column[end] = (dice.between(-32766, 32767) * head.numbers.step()) as i32;
        }
        cells.extend(column);
    }
    cells
}
