//! Orders with something wrong: the grid's length, the template, its length, the input.
//! Often more than one thing is, so that the order of the kinds shows.

use super::heights::unfit_cell;
use super::{ground, templates, whole, Order};
use crate::block::{put, Record, BLOCK_LENGTH, UNIT, USUAL_CELLS};
use crate::dice::Dice;
use crate::family::USGS;
use crate::record_a::{Header, MOST};
use crate::sheets::aimed::{replace, spoil_a_real, spoil_a_text};
use crate::sheets::damage::{damaged, fields_of, mistype_a_spot};
use crate::sheets::head::Head;
use crate::sheets::Sent;

/// Too short by one cell, by any number, or by all; or longer than the sheet, at times
/// with cells past it that no post can stand for.
pub fn grid_of_another_length(dice: &mut Dice) -> Order {
    let head = templates::small_head(dice);
    let mut order = sound_order(dice, &head);
    let need = head.cells();
    let step = head.numbers.step();
    if dice.one_in(3) {
        let more = *dice.pick(&[1, 7, 400, USUAL_CELLS - need]);
        order.cells.truncate(need);
        order
            .cells
            .extend((0..more).map(|_| unfit_cell(dice, step)));
    } else {
        let any = dice.size(0, need - 1);
        order
            .cells
            .truncate(*dice.pick(&[need - 1, need - 1, any, 0]));
        spoil_a_cell(dice, &mut order, step);
    }
    order
}

fn sound_order(dice: &mut Dice, head: &Head) -> Order {
    let cells = ground::cells(dice, head);
    whole::order(dice, head, cells)
}

/// Every other time, the first cell or any.
fn spoil_a_cell(dice: &mut Dice, order: &mut Order, step: i64) {
    if dice.one_in(2) && !order.cells.is_empty() {
        let any = dice.size(0, order.cells.len() - 1);
        let place = *dice.pick(&[0, any]);
        order.cells[place] = unfit_cell(dice, step);
    }
}

/// The template is at fault, and at times the cells or the grid's length are too.
pub fn damaged_template(dice: &mut Dice) -> Order {
    let head = templates::small_head(dice);
    let mut order = sound_order(dice, &head);
    match dice.size(0, 9) {
        0 | 1 => order.template = with_a_broken_rule(dice, &head),
        2 => spoil_a_text(dice, &mut order.template),
        3..=5 => replace(dice, fields_of(Record::Header), &mut order.template),
        6 => spoil_a_real(dice, Record::Header, &mut order.template),
        _ => {
            let sent = Sent {
                record: Record::Header,
                bytes: order.template,
            };
            order.template = damaged(dice, &sent);
        }
    }
    spoil_a_cell(dice, &mut order, head.numbers.step());
    if dice.one_in(4) {
        let some = dice.size(0, order.cells.len());
        order.cells.truncate(*dice.pick(&[0, some]));
    }
    order
}

/// One number of the template, at any of its bytes.
pub fn mistyped_template(dice: &mut Dice) -> Order {
    let head = templates::small_head(dice);
    let mut order = sound_order(dice, &head);
    mistype_a_spot(dice, USGS, Record::Header, &mut order.template);
    order
}

/// Corners out of order, no lattice between them or too many columns, n too great.
fn with_a_broken_rule(dice: &mut Dice, head: &Head) -> Vec<u8> {
    let mut broken = head.clone();
    match dice.size(0, 3) {
        0 => broken.numbers.corners.swap(0, 6),
        1 => set_xs(&mut broken.numbers, UNIT / 4, UNIT / 2),
        2 => set_xs(&mut broken.numbers, 0, MOST * UNIT),
        _ => broken.numbers.n = broken.columns + dice.between(1, 3),
    }
    broken.block(dice)
}

/// Western and eastern corners, and a spacing of one unit.
fn set_xs(numbers: &mut Header, west: i64, east: i64) {
    for (place, x) in [(0, west), (2, west), (4, east), (6, east)] {
        numbers.corners[place] = x;
    }
    numbers.x_spacing = UNIT;
}

/// No cells can follow a template that is cut short.
pub fn short_template(dice: &mut Dice) -> Order {
    let head = templates::small_head(dice);
    let mut template = templates::block(dice, &head);
    let any = dice.size(0, BLOCK_LENGTH - 1);
    template.truncate(*dice.pick(&[0, 1, 864, BLOCK_LENGTH - 1, any]));
    Order {
        template,
        ..Order::default()
    }
}

/// Cells not in whole fours, or too many; what else is wrong is not looked at.
pub fn input(dice: &mut Dice) -> Order {
    let head = templates::small_head(dice);
    let mut order = sound_order(dice, &head);
    if dice.one_in(4) {
        put(&mut order.template, 145, b"     9");
    }
    match dice.size(0, 3) {
        0 => {
            let more = *dice.pick(&[1, 1, 400]);
            order.cells.resize(USUAL_CELLS + more, 0);
        }
        1 => {
            order.cells.resize(USUAL_CELLS, 0);
            order.more = odd_bytes(dice);
        }
        2 => {
            order.cells.clear();
            order.more = odd_bytes(dice);
        }
        _ => order.more = odd_bytes(dice),
    }
    order
}

/// One, two or three: a cell begun.
fn odd_bytes(dice: &mut Dice) -> Vec<u8> {
    (0..dice.size(1, 3)).map(|_| dice.byte()).collect()
}
