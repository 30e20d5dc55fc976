//! Headers that obey record A: every system, unit and spacing, corners on the lattice,
//! a billionth beside it or anywhere between, and the block that holds them.

use super::{hand, put};
use crate::block::{BLOCK_LENGTH, HUNDREDTH, REAL_WIDTH, SPACING_WIDTH, UNIT};
use crate::dice::Dice;
use crate::family::USGS;
use crate::record_a::Header;

/// The texts and numbers of a record A, and where its lattice was meant to lie: the numbers
/// may be made wrong afterwards.
#[derive(Clone, Debug)]
pub struct Head {
    pub text: Vec<u8>,
    pub numbers: Header,
    pub later: Vec<u8>,
    pub columns: i64,
    pub rows: i64,
    /// x of column 0 and y of row 0.
    pub west: i64,
    pub south: i64,
}

const SPACINGS: [i64; 8] = [1, 2, 3, 10, 30, 30, 100, 9999];

/// A valid header of `columns` × `rows` cells; its stated extremes are any reals.
pub fn head(dice: &mut Dice, columns: i64, rows: i64) -> Head {
    let system = dice.between(0, 2);
    let vertical_unit = dice.between(1, 2);
    let (x_spacing, y_spacing) = (ground_spacing(dice), ground_spacing(dice));
    let z_spacing = height_spacing(dice, vertical_unit);
    let (west, xs) = axis(dice, columns, x_spacing);
    let (south, ys) = axis(dice, rows, y_spacing);
    Head {
        text: text(dice),
        numbers: Header {
            family: USGS,
            level: dice.between(1, 3),
            system,
            zone: zone(dice, system),
            ground_unit: ground_unit(dice, system),
            vertical_unit,
            corners: corners(xs, ys),
            stated_least: dice.between(-5_000_000, 0) * HUNDREDTH,
            stated_greatest: dice.between(0, 5_000_000) * HUNDREDTH,
            accuracy: dice.between(0, 1),
            x_spacing,
            y_spacing,
            z_spacing,
            n: dice.between(1, columns),
        },
        later: later(dice),
        columns,
        rows,
        west,
        south,
    }
}

fn zone(dice: &mut Dice, system: i64) -> i64 {
    let greatest = match system {
        0 => return 0,
        1 => 60,
        _ => 9999,
    };
    let any = dice.between(1, greatest);
    *dice.pick(&[1, 17, any, greatest])
}

fn ground_unit(dice: &mut Dice, system: i64) -> i64 {
    match system {
        0 => 3,
        1 => 2,
        _ => dice.between(1, 2),
    }
}

pub fn ground_spacing(dice: &mut Dice) -> i64 {
    let units = if dice.one_in(3) {
        dice.between(1, 9999)
    } else {
        *dice.pick(&SPACINGS)
    };
    units * UNIT
}

/// Tenths in feet, hundredths in metres, up to one.
pub(super) fn height_spacing(dice: &mut Dice, vertical_unit: i64) -> i64 {
    let finest = if vertical_unit == 1 { 10 } else { 1 };
    let steps = 100 / finest;
    let any = dice.between(1, steps);
    *dice.pick(&[1, any, any, steps]) * finest * HUNDREDTH
}

/// Low and high coordinate of the two sides that run along one axis.
pub(super) type Sides = [(i64, i64); 2];

/// The first multiple of an axis of `count` multiples, and sides that hold just those.
fn axis(dice: &mut Dice, count: i64, spacing: i64) -> (i64, Sides) {
    let first = first_multiple(dice, spacing);
    let last = first + (count - 1) * spacing;
    loop {
        let least = at_or_below(dice, first, spacing);
        let greatest = at_or_above(dice, last, spacing);
        if least < greatest {
            return (first, sides(dice, least, greatest));
        }
    }
}

/// Near zero, where sheets commonly lie, or near the limits of a real.
fn first_multiple(dice: &mut Dice, spacing: i64) -> i64 {
    let reach = *dice.pick(&[40, 3_000, 500_000, 5_000_000, 970_000_000]) * UNIT;
    dice.between(-reach, reach) / spacing * spacing
}

/// The smallest step from `value` that a real of 15 digits still shows.
pub fn finest_step(value: i64) -> i64 {
    let digits = value.unsigned_abs().to_string().len() as u32;
    10_i64.pow(digits.saturating_sub(15))
}

/// A corner value for which `multiple` is the least multiple not below.
pub(super) fn at_or_below(dice: &mut Dice, multiple: i64, spacing: i64) -> i64 {
    let before = multiple - spacing;
    match dice.size(0, 4) {
        0 | 1 => multiple,
        2 => multiple - finest_step(multiple),
        3 => before + finest_step(before),
        _ => multiple - millionths(dice, spacing),
    }
}

/// A corner value for which `multiple` is the greatest multiple not above.
pub(super) fn at_or_above(dice: &mut Dice, multiple: i64, spacing: i64) -> i64 {
    -at_or_below(dice, -multiple, spacing)
}

/// Less than a spacing, in whole millionths: any sum of such has 15 digits or fewer.
fn millionths(dice: &mut Dice, spacing: i64) -> i64 {
    dice.between(0, spacing / 1000 - 1) * 1000
}

/// One side may be shorter than the other at either end; together they span all.
fn sides(dice: &mut Dice, least: i64, greatest: i64) -> Sides {
    let mut both = [(least, greatest); 2];
    let (short_low, short_high) = (dice.size(0, 1), dice.size(0, 1));
    if dice.one_in(2) {
        both[short_low].0 = inside(dice, least, both[short_low].1);
    }
    if dice.one_in(2) {
        let from = both[short_high].0;
        both[short_high].1 = -inside(dice, -greatest, -from);
    }
    both
}

/// A whole number of millionths from `low` on and below `high`; `low` if there is none.
pub(super) fn inside(dice: &mut Dice, low: i64, high: i64) -> i64 {
    let any = dice.between(low, high - 1);
    let rounded = any - any.rem_euclid(1000);
    if rounded < low {
        low
    } else {
        rounded
    }
}

pub(super) fn corners(xs: Sides, ys: Sides) -> [i64; 8] {
    let ([(sw_x, se_x), (nw_x, ne_x)], [(sw_y, nw_y), (se_y, ne_y)]) = (xs, ys);
    [sw_x, sw_y, nw_x, nw_y, ne_x, ne_y, se_x, se_y]
}

pub(super) const LETTERS: &[u8] = b"ABCDEFGHIJKLMNOPQRSTUVWXYZ0123456789 ,.-'/()~@[`{}!&";
pub const ORIGIN_TEXTS: [&str; 9] = [
    "MAC ", "GPM2", "MCMC", "RMMC", "WMC ", "FS  ", "    ", "NGS ", "MAC2",
];

/// Bytes 1 to 144: a name, more text, an origin.
fn text(dice: &mut Dice) -> Vec<u8> {
    let mut text = vec![b' '; 144];
    let name = dice.size(0, 40);
    for byte in &mut text[..name] {
        *byte = *dice.pick(LETTERS);
    }
    if dice.one_in(3) {
        for byte in &mut text[40..140] {
            *byte = *dice.pick(LETTERS);
        }
    }
    text[140..].copy_from_slice(dice.pick(&ORIGIN_TEXTS).as_bytes());
    text
}

/// Bytes 865 to 1024, blank on most sheets.
pub(super) fn later(dice: &mut Dice) -> Vec<u8> {
    let used = *dice.pick(&[0, 0, 32, 160]);
    let mut later = vec![b' '; 160];
    for byte in &mut later[..used] {
        *byte = *dice.pick(LETTERS);
    }
    later
}

/// The projection's reals are judged by form only, so some are past every limit.
const PROJECTION_TEXTS: [&str; 8] = [
    "0.0",
    "0.000000000000000D+00",
    "0",
    "-0.123456789012345D+17",
    "1D99",
    ".5D-99",
    "123456789.123456789",
    "999999999999999999999999",
];

impl Head {
    pub fn cells(&self) -> usize {
        (self.columns * self.rows) as usize
    }

    pub fn block(&self, dice: &mut Dice) -> Vec<u8> {
        let mut block = vec![b' '; BLOCK_LENGTH];
        put(&mut block, 1, &self.text);
        put(&mut block, 865, &self.later);
        for (first, value) in integers(&self.numbers) {
            put(&mut block, first, &hand::integer(dice, value));
        }
        for place in 0..15 {
            let text = *dice.pick(&PROJECTION_TEXTS);
            let field = format!("{text:REAL_WIDTH$}");
            put(&mut block, 169 + place * REAL_WIDTH, field.as_bytes());
        }
        for (first, value) in reals(&self.numbers) {
            let field = hand::real(dice, value, REAL_WIDTH);
            put(&mut block, first, &field);
        }
        for (first, spacing) in spacings(&self.numbers) {
            let field = hand::real(dice, spacing, SPACING_WIDTH);
            put(&mut block, first, &field);
        }
        block
    }
}

fn integers(numbers: &Header) -> [(usize, i64); 10] {
    [
        (145, numbers.level),
        (151, 1),
        (157, numbers.system),
        (163, numbers.zone),
        (529, numbers.ground_unit),
        (535, numbers.vertical_unit),
        (541, 4),
        (811, numbers.accuracy),
        (853, 1),
        (859, numbers.n),
    ]
}

/// The corners, the extremes and the angle, which is zero.
fn reals(numbers: &Header) -> Vec<(usize, i64)> {
    let corners = numbers.corners.into_iter().enumerate();
    let mut all: Vec<(usize, i64)> = corners
        .map(|(place, value)| (547 + place * REAL_WIDTH, value))
        .collect();
    all.extend([
        (739, numbers.stated_least),
        (763, numbers.stated_greatest),
        (787, 0),
    ]);
    all
}

fn spacings(numbers: &Header) -> [(usize, i64); 3] {
    [
        (817, numbers.x_spacing),
        (829, numbers.y_spacing),
        (841, numbers.z_spacing),
    ]
}
