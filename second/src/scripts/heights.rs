//! Heights as far from zero as there are, so that the sum of a long profile passes 32 bits, and
//! heights that come to nothing together.

use super::poor_line::over_a_poor_line;
use crate::block::UNIT;
use crate::dice::Dice;
use crate::profile::VOID_POST;
use crate::replay::Script;
use crate::sheets::posts::{Run, OUTERMOST};
use crate::sheets::shapes::long_or_small_plan;

pub fn far(dice: &mut Dice) -> Script {
    let mut plan = long_or_small_plan(dice, 2);
    plan.head.numbers.z_spacing = UNIT;
    let [highest, deepest] = OUTERMOST;
    let ground = *dice.pick(&[Some(highest), Some(deepest), None]);
    let voids = *dice.pick(&[0, 0, 1, 50]);
    for run in &mut plan.runs {
        match ground {
            Some((post, datum)) => level(run, post, datum),
            None => balance(run),
        }
        for post in &mut run.posts {
            if ground.is_some() && dice.between(1, 100) <= voids {
                *post = VOID_POST;
            }
        }
    }
    over_a_poor_line(dice, &plan, 10)
}

fn level(run: &mut Run, post: i64, datum: i64) {
    run.datum = datum;
    run.posts.fill(post);
}

/// As much above zero as below; a post that has no other against it is void.
fn balance(run: &mut Run) {
    run.datum = 0;
    for pair in run.posts.chunks_mut(2) {
        match pair {
            [south, north] => (*south, *north) = (32766, -32766),
            alone => alone.fill(VOID_POST),
        }
    }
}
