//! Corners, spacings and n where the rules over the whole record change their answer.

use super::any_head;
use crate::block::UNIT;
use crate::dice::Dice;
use crate::record_a::{Header, MOST};
use crate::sheets::head::{finest_step, ground_spacing};
use crate::texts::Visit;

/// Places of the x and of the y values among the corners: SW, NW, NE, SE.
const XS: [usize; 4] = [0, 2, 4, 6];
const YS: [usize; 4] = [1, 3, 5, 7];
/// The pairs that must stand in this order.
const ORDERED: [(usize, usize); 4] = [(0, 6), (2, 4), (1, 3), (7, 5)];

/// Each whole-record rule broken alone and with others.
pub fn broken_rules(dice: &mut Dice, visit: &mut Visit) {
    for turn in 0..24_000 {
        let mut head = any_head(dice);
        if turn & 1 != 0 {
            break_an_order(dice, &mut head.numbers.corners);
        }
        if turn & 2 != 0 {
            break_a_count(dice, &mut head.numbers);
        }
        if turn & 4 != 0 {
            let n = *dice.pick(&[head.columns, head.columns + 1, MOST]);
            head.numbers.n = n.min(MOST);
        }
        visit(&head.block(dice));
    }
}

/// One or more pairs exchanged, or made equal.
fn break_an_order(dice: &mut Dice, corners: &mut [i64; 8]) {
    for _ in 0..dice.size(1, 3) {
        let &(low, high) = dice.pick(&ORDERED);
        if dice.one_in(2) {
            corners.swap(low, high);
        } else {
            corners[low] = corners[high];
        }
    }
}

/// Too many multiples, or none, on one axis or on both.
fn break_a_count(dice: &mut Dice, numbers: &mut Header) {
    let which = dice.size(1, 3);
    if which & 1 != 0 {
        break_axis(dice, &mut numbers.corners, XS, numbers.x_spacing);
    }
    if which & 2 != 0 {
        break_axis(dice, &mut numbers.corners, YS, numbers.y_spacing);
    }
}

fn break_axis(dice: &mut Dice, corners: &mut [i64; 8], places: [usize; 4], spacing: i64) {
    let multiple = dice.between(-9, 9) * spacing;
    let (low, high) = if dice.one_in(2) {
        (multiple + 1000, multiple + spacing - 1000)
    } else {
        (multiple, multiple + dice.between(2048, 2052) * spacing)
    };
    set_span(corners, places, low, high);
}

/// Low at the two western or southern corners, high at the other two.
fn set_span(corners: &mut [i64; 8], places: [usize; 4], low: i64, high: i64) {
    let lower: [usize; 2] = if places == XS { [0, 2] } else { [1, 7] };
    for place in places {
        corners[place] = if lower.contains(&place) { low } else { high };
    }
}

/// Both ends of an axis on a multiple or one step beside it, with none, one, about 2048 or
/// some other number of multiples between; n is the columns or a few more or less.
pub fn edges(dice: &mut Dice, visit: &mut Visit) {
    for _ in 0..40_000 {
        let mut head = any_head(dice);
        let (spacing, along_x) = (ground_spacing(dice), dice.one_in(2));
        let reach = *dice.pick(&[5, 400, 900_000, 970_000_000]) * UNIT;
        let first = dice.between(-reach, reach) / spacing * spacing;
        let steps = *dice.pick(&[0, 1, 2, 1200, 2046, 2047, 2048, 2049]);
        let low = beside(dice, first);
        let high = beside(dice, first + steps * spacing);
        let places = if along_x { XS } else { YS };
        set_span(&mut head.numbers.corners, places, low, high);
        if along_x {
            head.numbers.x_spacing = spacing;
            head.numbers.n = (steps + dice.between(-1, 2)).clamp(1, MOST);
        } else {
            head.numbers.y_spacing = spacing;
        }
        visit(&head.block(dice));
    }
}

/// The value itself, or the nearest reals of 15 digits on either side.
fn beside(dice: &mut Dice, value: i64) -> i64 {
    value + dice.between(-1, 1) * finest_step(value)
}

/// Four corners thrown anywhere near each other; many are out of order.
pub fn any_corners(dice: &mut Dice, visit: &mut Visit) {
    for _ in 0..20_000 {
        let mut head = any_head(dice);
        let reach = *dice.pick(&[2, 40, 3_000, 100_000]);
        for corner in &mut head.numbers.corners {
            *corner = dice.between(-reach, reach) * UNIT + dice.between(-9, 9) * 100_000;
        }
        if dice.one_in(2) {
            turn_into_order(&mut head.numbers.corners);
        }
        head.numbers.n = dice.between(1, 12);
        visit(&head.block(dice));
    }
}

fn turn_into_order(corners: &mut [i64; 8]) {
    for (low, high) in ORDERED {
        if corners[low] > corners[high] {
            corners.swap(low, high);
        }
    }
}
