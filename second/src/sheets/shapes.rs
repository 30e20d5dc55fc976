//! The shapes of sheet that are tried most: small ones, ones with long profiles, wide ones.

use super::posts::LENGTHS;
use super::{plan, plan_with_length, Plan};
use crate::block::USUAL_CELLS;
use crate::dice::Dice;

/// Few columns and few rows, at times one only.
pub fn small_size(dice: &mut Dice) -> (i64, i64) {
    let (columns, rows) = (dice.between(1, 9), dice.between(1, 9));
    match dice.size(0, 7) {
        0 => (1, rows),
        1 => (columns, 1),
        _ => (columns, rows),
    }
}

pub fn small_plan(dice: &mut Dice) -> Plan {
    let (columns, rows) = small_size(dice);
    plan(dice, columns, rows)
}

/// Long profiles one time in `times`, else a small sheet.
pub fn long_or_small_plan(dice: &mut Dice, times: i64) -> Plan {
    if dice.one_in(times) {
        long_plan(dice)
    } else {
        small_plan(dice)
    }
}

/// Most often profiles at the lengths where a block is just full, of one to thirteen blocks;
/// up to seven columns, if a grid leaves room for them.
pub fn long_plan(dice: &mut Dice) -> Plan {
    let length = *dice.pick(&LENGTHS[1..]);
    let above = *dice.pick(&[0, 0, 1, 40]);
    let rows = (length + above).min(2048);
    let most = (USUAL_CELLS as i64 / rows).min(7);
    let any = dice.between(1, most);
    let columns = *dice.pick(&[1, 2.min(most), any]);
    if dice.one_in(3) {
        plan(dice, columns, rows)
    } else {
        plan_with_length(dice, columns, rows, length)
    }
}

/// Up to 2048 columns of a few rows, with no more profiles than can be read in a moment.
pub fn wide_plan(dice: &mut Dice) -> Plan {
    let columns = *dice.pick(&[100, 1000, 2047, 2048]);
    let rows = dice.between(1, 7);
    let wide = plan(dice, columns, rows);
    with_few_profiles(dice, wide)
}

/// The same sheet with thirty profiles at most.
pub fn with_few_profiles(dice: &mut Dice, mut plan: Plan) -> Plan {
    let n = plan.head.numbers.n.min(dice.between(1, 30));
    plan.head.numbers.n = n;
    plan.runs.truncate(n as usize);
    let room = plan.head.columns - n;
    plan.first_column = *dice.pick(&[0, room / 2, room]);
    plan
}
