//! Stated extremes that the posts do not bear out: a profile's least and greatest, the
//! sheet's least and greatest, alone and together.

use super::line::Line;
use crate::dice::Dice;
use crate::replay::Script;
use crate::sheets::aimed::misstate;
use crate::sheets::shapes::long_or_small_plan;
use crate::sheets::Plan;

pub fn wrong_extremes(dice: &mut Dice) -> Script {
    let plan = long_or_small_plan(dice, 3);
    let mut line = Line::open(dice, &plan);
    let true_blocks = line.blocks.clone();
    let wrong = misstate(dice, &mut line.blocks);
    for (number, sent) in true_blocks.iter().enumerate() {
        line.send_block(number);
        // A block not taken may be corrected; one taken with a wrong extreme cannot be.
        line.send(number, &sent.bytes);
        if number >= wrong {
            try_other_posts(dice, &plan, &mut line, number);
        }
    }
    line.script
}

/// The same block with its posts drawn anew, which may bear out what is stated or not.
fn try_other_posts(dice: &mut Dice, plan: &Plan, line: &mut Line, number: usize) {
    if !dice.one_in(4) {
        return;
    }
    let mut other = plan.clone();
    for run in &mut other.runs {
        let first = run.posts[0];
        run.posts.fill(first);
    }
    let blocks = other.blocks(dice);
    line.send(number, &blocks[number].bytes);
}
