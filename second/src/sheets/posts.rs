//! The posts of a profile: how many, where they begin, and what ground they show.

use super::{hand, put};
use crate::block::INTEGER_WIDTH;
use crate::dice::Dice;
use crate::profile::VOID_POST;

/// Lengths at which a profile's blocks come out just full, and the ones beside them.
pub const LENGTHS: [i64; 9] = [1, 146, 147, 316, 317, 486, 487, 1201, 2048];

/// Post and datum of the highest and of the deepest ground at a z spacing of 1; a post of
/// -32767 would be void.
pub const OUTERMOST: [(i64, i64); 2] = [(32767, 1_000_000), (-32766, -1_000_000)];

/// The posts of one profile; the datum is in hundredths.
#[derive(Clone, Debug)]
pub struct Run {
    pub row: i64,
    pub datum: i64,
    pub posts: Vec<i64>,
}

impl Run {
    /// Elevations of the posts that are not void, in hundredths.
    pub fn filled(&self, step: i64) -> Vec<i64> {
        let filled = self.posts.iter().filter(|&&post| post != VOID_POST);
        filled.map(|post| post * step + self.datum).collect()
    }
}

/// A profile of any length the rows leave room for, often all of them.
pub fn run(dice: &mut Dice, rows: i64) -> Run {
    let any = dice.between(1, rows);
    let length = if dice.one_in(3) {
        (*dice.pick(&LENGTHS)).min(rows)
    } else {
        *dice.pick(&[1, any, any, rows])
    };
    run_of(dice, rows, length)
}

pub fn run_of(dice: &mut Dice, rows: i64, length: i64) -> Run {
    let room = rows - length;
    let any = dice.between(0, room);
    Run {
        row: *dice.pick(&[0, any, room]),
        datum: datum(dice),
        posts: ground(dice, length),
    }
}

/// None, whole units, any hundredths, or at the limit of 10,000 units.
fn datum(dice: &mut Dice) -> i64 {
    let any = dice.between(-1_000_000, 1_000_000);
    let whole = dice.between(-10_000, 10_000) * 100;
    *dice.pick(&[0, 0, any, whole, 1_000_000, -1_000_000])
}

/// Rolling, wild or outermost ground, with no, some or only voids.
pub fn ground(dice: &mut Dice, length: i64) -> Vec<i64> {
    let middle = dice.between(-30_000, 30_000);
    let relief = *dice.pick(&[0, 1, 50, 2_000]);
    let voids = *dice.pick(&[0, 0, 0, 5, 50, 95, 100]);
    let outermost = dice.one_in(8);
    let post = |dice: &mut Dice| {
        if dice.between(1, 100) <= voids {
            VOID_POST
        } else if outermost {
            *dice.pick(&[-32766, 32767, -32766, 32767, 0, -1, 1])
        } else {
            middle + dice.between(-relief, relief)
        }
    };
    (0..length).map(|_| post(dice)).collect()
}

pub fn put_posts(dice: &mut Dice, block: &mut [u8], first: usize, posts: &[i64]) {
    for (place, &post) in posts.iter().enumerate() {
        let field = hand::integer(dice, post);
        put(block, first + place * INTEGER_WIDTH, &field);
    }
}
