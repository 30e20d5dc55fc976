//! The writer: a template record A and a grid, made into the blocks of a sheet. All the
//! blocks are written down, and one of them is picked out when one is asked for.

use crate::block::{demand, BLOCK_LENGTH, HUNDREDTH};
use crate::kind::{GRID_TOO_SHORT, NO_SUCH_BLOCK, UNFIT_CELL, WRONG_LENGTH};
use crate::meaning::VOID_CELL;
use crate::profile::{FIRST_POST, POSTS_OF_FIRST_BLOCK, POSTS_OF_FURTHER_BLOCK, VOID_POST};
use crate::record_a::{self, Header};
use crate::written::{put_integers, put_reals, put_spacings};
use std::ops::RangeInclusive;

/// A kind, and the one number that goes with it.
pub type Refusal = (u32, u32);

pub type Written = [u8; BLOCK_LENGTH];

const BLANK: Written = [b' '; BLOCK_LENGTH];
/// -32767 is left out: as a post it is a void.
const QUOTIENTS: RangeInclusive<i64> = -32766..=32767;

/// Block `number` of the sheet, for a lent block of `lent_length` bytes.
pub fn write_block(
    template: &[u8],
    grid: &[i32],
    number: u32,
    lent_length: usize,
) -> Result<Written, Refusal> {
    demand(lent_length == BLOCK_LENGTH, WRONG_LENGTH, 0)?;
    let blocks = sheet_blocks(template, grid)?;
    let count = blocks.len();
    demand((number as usize) < count, NO_SUCH_BLOCK, count)?;
    Ok(blocks[number as usize])
}

/// How many blocks the sheet has.
pub fn block_count(template: &[u8], grid: &[i32]) -> Result<u32, Refusal> {
    Ok(sheet_blocks(template, grid)?.len() as u32)
}

/// Block 0 and the blocks of one profile for each column, from the west.
pub fn sheet_blocks(template: &[u8], grid: &[i32]) -> Result<Vec<Written>, Refusal> {
    demand(template.len() == BLOCK_LENGTH, WRONG_LENGTH, 1)?;
    let header = record_a::check(template)?;
    demand(grid.len() >= header.cells(), GRID_TOO_SHORT, 0)?;
    let cells = &grid[..header.cells()];
    check_cells(cells, header.step())?;
    let mut blocks = vec![header_block(template, &header, cells)];
    let rows = header.rows().count() as usize;
    for (column, cells) in cells.chunks(rows).enumerate() {
        blocks.extend(profile_blocks(&header, column, cells));
    }
    Ok(blocks)
}

/// The first cell, in cell order, that no post can stand for (READINGS 32).
fn check_cells(cells: &[i32], step: i64) -> Result<(), Refusal> {
    for (place, &cell) in cells.iter().enumerate() {
        demand(fits(cell, step), UNFIT_CELL, place)?;
    }
    Ok(())
}

/// Whether a post of this step, in hundredths, can stand for the cell.
pub fn fits(cell: i32, step: i64) -> bool {
    let height = i64::from(cell);
    cell == VOID_CELL || height % step == 0 && QUOTIENTS.contains(&(height / step))
}

/// Least and greatest of the filled cells, in billionths; zeros if none is filled.
fn extremes(cells: &[i32]) -> [i64; 2] {
    let filled = || cells.iter().filter(|&&cell| cell != VOID_CELL);
    let least = filled().min().copied().unwrap_or(0);
    let greatest = filled().max().copied().unwrap_or(0);
    [least, greatest].map(|cell| i64::from(cell) * HUNDREDTH)
}

/// The template with each numeric field but 169-528 written anew (READINGS 33).
fn header_block(template: &[u8], header: &Header, cells: &[i32]) -> Written {
    let mut block = BLANK;
    block.copy_from_slice(template);
    let (pattern, sides, angle, accuracy, m) = (1, 4, 0, 0, 1);
    let columns = header.columns().count();
    let codes = [header.level, pattern, header.system, header.zone];
    let units = [header.ground_unit, header.vertical_unit];
    let spacings = [header.x_spacing, header.y_spacing, header.z_spacing];
    put_integers(&mut block, 145, &codes);
    put_integers(&mut block, 529, &units);
    put_integers(&mut block, 541, &[sides]);
    put_reals(&mut block, 547, &header.corners);
    put_reals(&mut block, 739, &extremes(cells));
    put_reals(&mut block, 787, &[angle]);
    put_integers(&mut block, 811, &[accuracy]);
    put_spacings(&mut block, 817, &spacings);
    put_integers(&mut block, 853, &[m, columns]);
    block
}

/// The rows of a profile: from the first filled one to the last, or row 0 alone if the
/// column is all void; its cell then becomes the one void post.
fn rows_of_profile(cells: &[i32]) -> RangeInclusive<usize> {
    let filled = |&cell: &i32| cell != VOID_CELL;
    let first = cells.iter().position(filled).unwrap_or(0);
    let last = cells.iter().rposition(filled).unwrap_or(0);
    first..=last
}

fn post_of(cell: i32, step: i64) -> i64 {
    if cell == VOID_CELL {
        VOID_POST
    } else {
        i64::from(cell) / step
    }
}

fn profile_blocks(header: &Header, column: usize, cells: &[i32]) -> Vec<Written> {
    let rows = rows_of_profile(cells);
    let x = header.columns().start() + column as i64 * header.x_spacing;
    let y = header.rows().start() + *rows.start() as i64 * header.y_spacing;
    let post = |&cell: &i32| post_of(cell, header.step());
    let posts: Vec<i64> = cells[rows].iter().map(post).collect();
    let (near, far) = posts.split_at(posts.len().min(POSTS_OF_FIRST_BLOCK));
    let (one, number, datum) = (1, column as i64 + 1, 0);
    let mut start = BLANK;
    put_integers(&mut start, 1, &[one, number, posts.len() as i64, one]);
    put_reals(&mut start, 25, &[x, y, datum]);
    put_reals(&mut start, 97, &extremes(cells));
    put_integers(&mut start, FIRST_POST, near);
    let mut blocks = vec![start];
    for part in far.chunks(POSTS_OF_FURTHER_BLOCK) {
        let mut further = BLANK;
        put_integers(&mut further, 1, part);
        blocks.push(further);
    }
    blocks
}
