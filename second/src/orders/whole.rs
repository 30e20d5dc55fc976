//! Orders that are sent: sheets of every shape, with cells to spare or just enough.

use super::{ground, templates, Order};
use crate::block::USUAL_CELLS;
use crate::dice::Dice;
use crate::meaning::VOID_CELL;
use crate::sheets::head::Head;
use crate::sheets::posts::LENGTHS;

/// The most cells an order may have.
const MOST: i64 = USUAL_CELLS as i64;

/// An order for these cells; cells past the sheet, any at all, may follow them.
pub fn order(dice: &mut Dice, head: &Head, mut cells: Vec<i32>) -> Order {
    let room = USUAL_CELLS - cells.len();
    let few = dice.size(0, 40).min(room);
    for _ in 0..*dice.pick(&[0, 0, 1.min(room), few]) {
        let any = dice.roll() as i32;
        cells.push(*dice.pick(&[any, 7, VOID_CELL, i32::MAX]));
    }
    Order {
        template: templates::block(dice, head),
        cells,
        more: Vec::new(),
    }
}

fn of_size(dice: &mut Dice, columns: i64, rows: i64) -> Order {
    let head = templates::head(dice, columns, rows);
    let cells = ground::cells(dice, &head);
    order(dice, &head, cells)
}

pub fn small(dice: &mut Dice) -> Order {
    let head = templates::small_head(dice);
    let cells = ground::cells(dice, &head);
    order(dice, &head, cells)
}

/// Nothing filled, one cell filled, or one column of the sheet.
pub fn of_voids(dice: &mut Dice) -> Order {
    let head = templates::small_head(dice);
    let mut cells = vec![VOID_CELL; head.cells()];
    let ground = ground::cells(dice, &head);
    let any = dice.size(0, cells.len() - 1);
    match dice.size(0, 3) {
        0 => {}
        1 => cells[any] = head.numbers.step() as i32,
        _ => {
            let rows = head.rows as usize;
            let south = any / rows * rows;
            cells[south..south + rows].copy_from_slice(&ground[south..south + rows]);
        }
    }
    order(dice, &head, cells)
}

/// Profiles of one to thirteen blocks, at the lengths where a block is just full.
pub fn long(dice: &mut Dice) -> Order {
    let length = *dice.pick(&LENGTHS[1..]);
    let above = *dice.pick(&[0, 0, 1, 200]);
    let rows = (length + above).min(2048);
    let columns = dice.between(1, (MOST / rows).min(7));
    let head = templates::head(dice, columns, rows);
    let cells = if dice.one_in(3) {
        ground::cells(dice, &head)
    } else {
        ground::cells_of_length(dice, &head, length)
    };
    order(dice, &head, cells)
}

pub fn wide(dice: &mut Dice) -> Order {
    let columns = *dice.pick(&[300, 2047, 2048, 2048]);
    let rows = dice.between(1, 7);
    of_size(dice, columns, rows)
}

/// All the cells an order may have, or as many as fill whole columns.
pub fn full(dice: &mut Dice) -> Order {
    let any = dice.between(8, 2048);
    let rows = *dice.pick(&[125, 120, 1875, any]);
    of_size(dice, MOST / rows, rows)
}
