//! The block that a session awaits, right in all or, at times, in all but one place.

use crate::block::{Record, BLOCK_LENGTH, HUNDREDTH, INTEGER_WIDTH, REAL_WIDTH};
use crate::dice::Dice;
use crate::family::{CANADIAN, CANADIAN_SIDE};
use crate::kept::{Kept, Running};
use crate::profile::{elevation, FIRST_POST, POSTS_OF_FIRST_BLOCK, POSTS_OF_FURTHER_BLOCK};
use crate::sheets::posts::{self, Run};
use crate::sheets::shapes::small_size;
use crate::sheets::{canadian, hand, head, put, statistics, statistics_block, Sent};

/// For a sheet that is complete, a block of any record. Where the block closes a profile,
/// the extremes that the session states are moved to what it closes with, most often.
pub fn awaited(dice: &mut Dice, kept: &mut Kept) -> Sent {
    let record = kept.awaits().unwrap_or(Record::Statistics);
    let bytes = match record {
        Record::Header => header_block(dice, kept.header.family),
        Record::Statistics => {
            let numbers = statistics(dice);
            statistics_block(dice, &numbers)
        }
        Record::ProfileStart => start_block(dice, kept),
        Record::ProfileRest => rest_block(dice, kept),
    };
    Sent { record, bytes }
}

/// A family that nobody knows has no record A of its own.
fn header_block(dice: &mut Dice, family: i64) -> Vec<u8> {
    if family == CANADIAN {
        return canadian::head(dice).block(dice);
    }
    let (columns, rows) = small_size(dice);
    head::head(dice, columns, rows).block(dice)
}

/// A profile that the family allows.
fn run_of(dice: &mut Dice, kept: &Kept) -> Run {
    let rows = kept.header.rows().count();
    match kept.header.family {
        CANADIAN => posts::run_of(dice, rows, CANADIAN_SIDE),
        _ => posts::run(dice, rows),
    }
}

fn start_block(dice: &mut Dice, kept: &mut Kept) -> Vec<u8> {
    let run = run_of(dice, kept);
    let near = run.posts.len().min(POSTS_OF_FIRST_BLOCK);
    let found = elevations(kept, run.datum, &run.posts[..near]);
    let mut stated = (
        dice.between(-9, 9) * HUNDREDTH,
        dice.between(-9, 9) * HUNDREDTH,
    );
    if near == run.posts.len() {
        stated = stated_after(dice, Running::default(), &found);
        state_the_sheets(dice, kept, &found);
    }
    let mut block = vec![b' '; BLOCK_LENGTH];
    let integers = [1, kept.closed + 1, run.posts.len() as i64, 1];
    for (place, value) in integers.into_iter().enumerate() {
        let first = 1 + place * INTEGER_WIDTH;
        put(&mut block, first, &hand::integer(dice, value));
    }
    let [x, y] = southern_post(dice, kept, &run);
    let reals = [x, y, run.datum * HUNDREDTH, stated.0, stated.1];
    for (place, value) in reals.into_iter().enumerate() {
        let first = 25 + place * REAL_WIDTH;
        put(&mut block, first, &hand::real(dice, value, REAL_WIDTH));
    }
    posts::put_posts(dice, &mut block, FIRST_POST, &run.posts[..near]);
    block
}

/// At times a column or a row from where it should be.
fn southern_post(dice: &mut Dice, kept: &Kept, run: &Run) -> [i64; 2] {
    let header = &kept.header;
    let column = match kept.closed {
        0 => dice.between(0, header.columns().count() - header.n),
        _ => kept.column + kept.closed,
    };
    let astray = |dice: &mut Dice| *dice.pick(&[-1, 0, 0, 0, 0, 0, 0, 0, 0, 1]);
    let (east, north) = (column + astray(dice), run.row + astray(dice));
    [
        header.columns().start() + east * header.x_spacing,
        header.rows().start() + north * header.y_spacing,
    ]
}

fn rest_block(dice: &mut Dice, kept: &mut Kept) -> Vec<u8> {
    let left = kept.open.posts - kept.open.read;
    let count = left.min(POSTS_OF_FURTHER_BLOCK as i64);
    let posts = posts::ground(dice, count);
    let found = elevations(kept, kept.open.datum, &posts);
    if count == left {
        let stated = stated_after(dice, kept.open.running, &found);
        (kept.open.least, kept.open.greatest) = stated;
        state_the_sheets(dice, kept, &found);
    }
    let mut block = vec![b' '; BLOCK_LENGTH];
    posts::put_posts(dice, &mut block, 1, &posts);
    block
}

fn elevations(kept: &Kept, datum: i64, posts: &[i64]) -> Vec<i64> {
    let of_post = |&post: &i64| elevation(post, kept.header.z_spacing, datum * HUNDREDTH);
    posts.iter().filter_map(of_post).collect()
}

/// The extremes to state once these cells are filled too, in billionths; at times wrong.
fn stated_after(dice: &mut Dice, mut running: Running, found: &[i64]) -> (i64, i64) {
    running.add(found);
    let (least, greatest) = running.extremes();
    let off = |dice: &mut Dice| {
        let by = *dice.pick(&[1, -1, HUNDREDTH, -HUNDREDTH]);
        *dice.pick(&[0, 0, 0, 0, 0, 0, 0, 0, 0, by])
    };
    (
        least * HUNDREDTH + off(dice),
        greatest * HUNDREDTH + off(dice),
    )
}

/// If this block closes the last profile.
fn state_the_sheets(dice: &mut Dice, kept: &mut Kept, found: &[i64]) {
    if kept.closed + 1 == kept.header.n {
        let stated = stated_after(dice, kept.running, found);
        (kept.header.stated_least, kept.header.stated_greatest) = stated;
    }
}
