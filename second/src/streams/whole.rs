//! Whole sheets of every shape, and sheets about as large as the cells lent.

use super::{joined, sent_on, stream_of};
use crate::dice::Dice;
use crate::orders;
use crate::paper;
use crate::record_a::MOST;
use crate::sender::{self, Outcome};
use crate::sheets::aimed::spoil_a_text;
use crate::sheets::damage::damaged;
use crate::sheets::shapes::{long_plan, small_plan, wide_plan, with_few_profiles};
use crate::sheets::{plan, put, Plan};

pub fn small(dice: &mut Dice, _cells: usize) -> Vec<u8> {
    let plan = small_plan(dice);
    stream_of(dice, &plan)
}

/// Heights within two units of zero, where a minus stands before a whole part of 0.
pub fn low_ground(dice: &mut Dice, _cells: usize) -> Vec<u8> {
    let mut plan = small_plan(dice);
    let step = plan.head.numbers.step();
    let (low, high) = *dice.pick(&[(-150, 150), (-99, -1), (1, 99), (-9, 9)]);
    for run in &mut plan.runs {
        run.datum = dice.between(low, high);
        let room = (low - run.datum, high - run.datum);
        for post in &mut run.posts {
            *post = dice.between(room.0, room.1) / step;
        }
    }
    stream_of(dice, &plan)
}

pub fn long(dice: &mut Dice, _cells: usize) -> Vec<u8> {
    let plan = long_plan(dice);
    stream_of(dice, &plan)
}

/// At times with all the profiles there can be.
pub fn wide(dice: &mut Dice, _cells: usize) -> Vec<u8> {
    let plan = if dice.one_in(4) {
        let rows = dice.between(1, 7);
        every_profile(dice, MOST, rows)
    } else {
        wide_plan(dice)
    };
    stream_of(dice, &plan)
}

fn every_profile(dice: &mut Dice, columns: i64, rows: i64) -> Plan {
    loop {
        let plan = plan(dice, columns, rows);
        if plan.head.numbers.n == columns {
            return plan;
        }
    }
}

/// As many cells as are lent, the fewest more than that, or the most there can be. At
/// times something else is wrong too: in block 0 it is named, after it it comes too late.
pub fn around_the_cells_lent(dice: &mut Dice, cells: usize) -> Vec<u8> {
    let (columns, rows) = size_around(dice, cells as i64);
    let mut sheet = plan(dice, columns, rows);
    if !dice.one_in(6) {
        sheet = with_few_profiles(dice, sheet);
    }
    let mut blocks = sheet.blocks(dice);
    let any = dice.size(1, blocks.len() - 1);
    let seldom = if sheet.cells() > cells { 8 } else { 24 };
    match dice.size(0, seldom) {
        0 | 1 => blocks.truncate(1),
        2 | 3 => put(&mut blocks[any].bytes, 1, b"     X"),
        4 => blocks[0].bytes = damaged(dice, &blocks[0]),
        5 => spoil_a_text(dice, &mut blocks[0].bytes),
        6 => return sent_on(dice, &blocks),
        _ => {}
    }
    joined(&blocks)
}

/// Columns and rows.
type Size = (i64, i64);

fn size_around(dice: &mut Dice, cells: i64) -> Size {
    let (columns, rows) = below(dice, cells);
    match dice.size(0, 7) {
        0 => (MOST, MOST),
        1 => next_above(cells),
        2 => ((columns + 1).min(MOST), rows),
        3 | 4 => (columns, rows),
        _ => {
            let mut exact = sizes_of(cells);
            if exact.is_empty() {
                exact.push((columns, rows));
            }
            *dice.pick(&exact)
        }
    }
}

/// Any number of rows, and as many columns as then fit.
fn below(dice: &mut Dice, cells: i64) -> Size {
    let fewest = (cells / MOST + 1).min(MOST);
    let rows = dice.between(fewest, MOST);
    ((cells / rows).clamp(1, MOST), rows)
}

/// Every sheet of just so many cells.
fn sizes_of(cells: i64) -> Vec<Size> {
    let sizes = (1..=MOST).map(|rows| (cells / rows, rows));
    let fits = |&(columns, rows): &Size| (1..=MOST).contains(&columns) && columns * rows == cells;
    sizes.filter(fits).collect()
}

/// A sheet of more cells than these, and no sheet is between: not every number of cells
/// is one of columns times one of rows.
fn next_above(cells: i64) -> Size {
    let mut larger = (cells + 1..=MOST * MOST).flat_map(sizes_of);
    larger.next().unwrap_or((MOST, MOST))
}

/// A sheet as the writer here sends it.
pub fn as_sent(dice: &mut Dice, _cells: usize) -> Vec<u8> {
    let order = if dice.one_in(3) {
        orders::whole::of_voids(dice)
    } else {
        orders::whole::small(dice)
    };
    match sender::run(&order.bytes()) {
        Outcome::Sent(blocks) => blocks.concat(),
        _ => paper::sheet(),
    }
}
