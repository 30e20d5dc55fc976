//! Values for the numbers of a session on both sides of every bound that some clause
//! sets, and numbers that are wrong as such: negative, huge, right when cut to 32 bits.

use crate::block::{HUNDREDTH, UNIT};
use crate::dice::Dice;
use crate::family::{CANADIAN, CANADIAN_SIDE, PAIRS, USGS};
use crate::kept::clauses::{FURTHEST, FURTHEST_DATUM};
use crate::kept::{blocks_of, Kept};
use crate::lattice::Axis;
use crate::record_a::MOST;

/// One past the size of any real.
const SIZE: i64 = UNIT * UNIT;
const SIXTEEN_DIGITS: i64 = 1_000_000_000_000_001;

/// Values for the number at `place`, none of them the one it has.
pub fn telling(kept: &Kept, place: usize) -> Vec<i64> {
    let value = kept.numbers()[place];
    let mut values: Vec<i64> = bounds(kept, place)
        .into_iter()
        .flat_map(|bound| [bound.saturating_sub(1), bound, bound.saturating_add(1)])
        .collect();
    values.extend([i64::MIN, -1, 0, 1, i64::MAX, 1 << 31, 1 << 32]);
    values.extend([1_i64 << 32, 1 << 16, 1].map(|more| value.saturating_add(more)));
    values.extend([value.saturating_sub(1), value.saturating_neg()]);
    values.sort_unstable();
    values.dedup();
    values.retain(|&other| other != value);
    values
}

/// The last good or the first bad value of the clauses about a number, other numbers being
/// what they are.
fn bounds(kept: &Kept, place: usize) -> Vec<i64> {
    match place {
        0..=4 | 15 => vec![1, 3, 60, 9999],
        5..=12 => bounds_of_a_corner(kept, place - 5),
        13 | 14 | 31 | 32 => vec![SIZE, -SIZE, SIXTEEN_DIGITS, SIZE - 1000],
        16 | 17 => ground_spacings(),
        18 => height_spacings(),
        19 => vec![
            1,
            CANADIAN_SIDE,
            kept.closed,
            MOST,
            columns(kept).count(),
            room_for_n(kept),
        ],
        20..=27 => bounds_of_the_sheet(kept, place),
        37 => [-1, 1]
            .map(|sign| sign * kept.running.filled * FURTHEST)
            .to_vec(),
        38 => families(),
        _ => bounds_of_the_profile(kept, place),
    }
}

fn columns(kept: &Kept) -> Axis {
    axis(kept.header.x_spacing, || kept.header.columns())
}

fn rows(kept: &Kept) -> Axis {
    axis(kept.header.y_spacing, || kept.header.rows())
}

/// A fresh session has no spacing, and no lattice.
fn axis(spacing: i64, of_header: impl Fn() -> Axis) -> Axis {
    match spacing {
        0 => Axis::between(0, 0, 1),
        _ => of_header(),
    }
}

fn room_for_n(kept: &Kept) -> i64 {
    columns(kept).count() - kept.column.min(MOST)
}

/// Both ends of 01's rule, and all that a Canadian list names.
fn ground_spacings() -> Vec<i64> {
    let mut spacings = vec![UNIT, 2 * UNIT, 9999 * UNIT, 10_000 * UNIT, UNIT / 2];
    spacings.extend(PAIRS.iter().map(|&(_, longitude)| longitude));
    spacings
}

/// The two we know, ones that nobody does, and ones that would be known if cut to fewer bits.
pub fn families() -> Vec<i64> {
    let mut families = vec![USGS, CANADIAN, 255];
    for bits in [8, 16, 32, 62] {
        families.extend([1 << bits, (1 << bits) + 1]);
    }
    families
}

fn height_spacings() -> Vec<i64> {
    let hundredths = [1, 5, 10, 15, 20, 90, 95, 99, 100, 101, 110];
    hundredths.map(|count| count * HUNDREDTH).to_vec()
}

/// Where the order of two corners, their digits, or a column or row more or less begin.
fn bounds_of_a_corner(kept: &Kept, place: usize) -> Vec<i64> {
    let corners = &kept.header.corners;
    let opposite = [6, 3, 4, 1, 2, 7, 0, 5][place];
    let (axis, spacing) = match place % 2 {
        0 => (columns(kept), kept.header.x_spacing),
        _ => (rows(kept), kept.header.y_spacing),
    };
    let (start, end) = (axis.start(), axis.end());
    let most = (MOST - 1) * spacing;
    let mut bounds = vec![SIZE, -SIZE, SIXTEEN_DIGITS, corners[opposite]];
    bounds.extend([start, end, end - most, start + most]);
    bounds.extend([start - spacing, end + spacing, end - most - spacing]);
    bounds.extend([corners[opposite] - 1000, corners[opposite] + 1000]);
    let full = (CANADIAN_SIDE - 1) * spacing;
    bounds.extend([
        end - full,
        start + full,
        start - spacing + 1,
        end + spacing - 1,
    ]);
    bounds
}

fn bounds_of_the_sheet(kept: &Kept, place: usize) -> Vec<i64> {
    let (blocks, read) = match kept.has_open() {
        true => (blocks_of(kept.open.read), kept.open.read),
        false => (kept.finished, 0),
    };
    let (n, closed) = (kept.header.n, kept.closed);
    match place {
        20 => vec![1 + closed + blocks, 1 + 13 * closed + blocks],
        21 => vec![
            n,
            kept.posts - read,
            (kept.posts - read) / MOST,
            kept.taken - 1 - blocks,
            (kept.taken - 1 - blocks) / 13,
        ],
        22 => vec![closed + read, MOST * closed + read, kept.running.filled],
        // The last is the fewest that bear the sum.
        23 => vec![
            kept.posts,
            kept.open.read,
            (kept.sum.abs() + FURTHEST - 1) / FURTHEST,
        ],
        24 => vec![-FURTHEST, FURTHEST, kept.running.high],
        25 => vec![-FURTHEST, FURTHEST, kept.running.low],
        26 => vec![columns(kept).count() - n, columns(kept).count()],
        _ => vec![1],
    }
}

fn bounds_of_the_profile(kept: &Kept, place: usize) -> Vec<i64> {
    let (open, rows) = (&kept.open, rows(kept).count());
    match place {
        28 => vec![
            open.read.min(1 << 40),
            rows - open.row.min(MOST),
            MOST,
            146,
            CANADIAN_SIDE,
        ],
        29 => vec![rows - open.posts, rows],
        30 => vec![FURTHEST_DATUM, -FURTHEST_DATUM],
        33 => vec![
            open.posts,
            146,
            316,
            486,
            open.read.saturating_add(170),
            open.read.saturating_sub(170),
            open.running.filled,
        ],
        34 => vec![open.read, open.posts, kept.running.filled],
        35 => vec![-FURTHEST, FURTHEST, open.running.high],
        _ => vec![-FURTHEST, FURTHEST, open.running.low],
    }
}

/// Moves the corners so that one axis has none, one, 2048 or 2049 multiples, and n to the
/// columns or one past them.
pub fn stretch(dice: &mut Dice, kept: &mut Kept) {
    if kept.taken == 0 {
        return;
    }
    let header = &mut kept.header;
    let (lower, upper, spacing) = match dice.one_in(2) {
        true => ([0, 2], [4, 6], header.x_spacing),
        false => ([1, 7], [3, 5], header.y_spacing),
    };
    let first = dice.between(-9, 9) * spacing;
    let (low, high) = match dice.size(0, 4) {
        0 => (first + 1000, first + spacing - 1000),
        1 => (first - 1000, first + spacing - 1000),
        2 => (first, first + (MOST - 1) * spacing),
        3 => (first, first + MOST * spacing),
        _ => (first - 1000, first + MOST * spacing - 1000),
    };
    for corner in lower {
        header.corners[corner] = low;
    }
    for corner in upper {
        header.corners[corner] = high;
    }
    if dice.one_in(2) {
        let columns = header.columns().count();
        header.n = columns + dice.between(-1, 1);
        kept.closed = kept.closed.min(header.n.max(0));
    }
}
