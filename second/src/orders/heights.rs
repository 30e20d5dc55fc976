//! Heights at the ends of what a post can say, and cells that no post can stand for.

use super::{ground, templates, whole, Order};
use crate::dice::Dice;
use crate::meaning::VOID_CELL;

/// Steps at the limits and beside them, all of which a post can say.
const OUTERMOST: [i64; 9] = [-32766, -32765, -32766, -1, 0, 1, 32766, 32767, 32767];

/// Outermost heights and voids; every second order has one cell a step too far.
pub fn at_the_limits(dice: &mut Dice) -> Order {
    let head = templates::small_head(dice);
    let step = head.numbers.step();
    let mut cells = Vec::new();
    for _ in 0..head.cells() {
        let height = (*dice.pick(&OUTERMOST) * step) as i32;
        cells.push(*dice.pick(&[height, height, height, VOID_CELL]));
    }
    if dice.one_in(2) {
        let place = dice.size(0, cells.len() - 1);
        let too_far = *dice.pick(&[-32767, 32768]);
        cells[place] = (too_far * step) as i32;
    }
    whole::order(dice, &head, cells)
}

/// One cell or some that no post can stand for: the first in cell order is named.
pub fn unfit(dice: &mut Dice) -> Order {
    let head = templates::small_head(dice);
    let mut cells = ground::cells(dice, &head);
    let step = head.numbers.step();
    let last = cells.len() - 1;
    for _ in 0..*dice.pick(&[1, 1, 2, 5]) {
        let any = dice.size(0, last);
        let place = *dice.pick(&[any, any, 0, last]);
        cells[place] = unfit_cell(dice, step);
    }
    whole::order(dice, &head, cells)
}

/// Between two steps if there is anything between, or too many steps: one too many, as
/// many as look right when cut to 16 bits, or as many as a cell can say.
pub fn unfit_cell(dice: &mut Dice, step: i64) -> i32 {
    let post = dice.between(-32766, 32767);
    let beside = dice.between(1, (step - 1).max(1));
    let between = post * step + beside;
    let wrapped = (post + *dice.pick(&[-65_536, 65_536])) * step;
    let too_far = *dice.pick(&[-32767, -32768, 32768, 32769, 65_535]) * step;
    let outermost = *dice.pick(&[i32::MAX, i32::MIN + 1]);
    let inside = if step > 1 { between } else { too_far };
    let unfit = *dice.pick(&[inside, inside, wrapped, too_far, i64::from(outermost)]);
    unfit as i32
}
