//! Sound sessions of every stage, most of which no list of blocks leads to: counts and
//! extremes anywhere their clauses let them be, and anything where no clause speaks.

use crate::dice::Dice;
use crate::kept::clauses::{FURTHEST, FURTHEST_DATUM};
use crate::kept::{blocks_of, Kept, Open, Running};
use crate::record_a::{Header, MOST};
use crate::sheets::head;
use crate::sheets::shapes::small_size;

/// Fresh; block 0 taken; between two profiles; inside one; all closed; record C taken.
pub const STAGES: usize = 6;
pub(super) const FRESH: usize = 0;
pub(super) const BEGUN: usize = 1;
pub(super) const BETWEEN: usize = 2;
pub(super) const INSIDE: usize = 3;
pub(super) const CLOSED: usize = 4;
pub(super) const FINISHED: usize = 5;

/// A profile of more posts than this has further blocks.
const FIRST_BLOCK: i64 = 146;

pub fn any(dice: &mut Dice) -> Kept {
    let stage = *dice.pick(&[
        FRESH, BEGUN, BEGUN, BETWEEN, BETWEEN, BETWEEN, INSIDE, INSIDE, INSIDE, INSIDE, CLOSED,
        CLOSED, FINISHED,
    ]);
    of_stage(dice, stage)
}

pub fn of_stage(dice: &mut Dice, stage: usize) -> Kept {
    if stage == FRESH {
        return Kept::fresh();
    }
    let (columns, rows) = match stage {
        INSIDE => long_size(dice),
        _ => any_size(dice),
    };
    let mut kept = Kept {
        header: head::head(dice, columns, rows).numbers,
        ..Kept::fresh()
    };
    kept.header.n = *dice.pick(&[kept.header.n, columns, 1]);
    let n = kept.header.n;
    kept.closed = match stage {
        BEGUN => 0,
        CLOSED | FINISHED => n,
        _ => between(dice, 0, n - 1),
    };
    if stage == FINISHED {
        kept.header.accuracy = 1;
        kept.finished = 1;
    }
    if stage == INSIDE {
        kept.open = open(dice, rows);
    }
    count(dice, &mut kept);
    kept.column = between(dice, 0, columns - n);
    if dice.one_in(2) {
        leave_open_what_is_free(dice, &mut kept);
    }
    kept
}

/// All profiles but one closed, each of as many posts and blocks as there can be.
pub fn before_the_last_profile(dice: &mut Dice, header: &Header) -> Kept {
    let mut kept = Kept {
        header: header.clone(),
        ..Kept::fresh()
    };
    kept.header.n = header.columns().count();
    kept.closed = kept.header.n - 1;
    kept.posts = MOST * kept.closed;
    kept.taken = 1 + 13 * kept.closed;
    kept.running = running(dice, kept.posts);
    kept.sum = sum(dice, kept.running.filled);
    kept
}

/// The same with all blocks of a profile of 2048 posts taken but its last.
pub fn reach_the_last_block(kept: &mut Kept) {
    let read = FIRST_BLOCK + 11 * 170;
    kept.open = Open {
        posts: MOST,
        read,
        ..Open::default()
    };
    kept.posts += read;
    kept.taken += blocks_of(read);
}

fn any_size(dice: &mut Dice) -> (i64, i64) {
    match dice.size(0, 9) {
        0..=5 => small_size(dice),
        6..=8 => long_size(dice),
        _ => *dice.pick(&[(2048, 1), (2047, 2), (1, 2048), (2, 2047)]),
    }
}

/// Rows enough for a profile of two blocks or more.
fn long_size(dice: &mut Dice) -> (i64, i64) {
    let any = dice.between(FIRST_BLOCK + 1, 700);
    let rows = *dice.pick(&[147, 148, 316, 317, 318, 487, any, any, any]);
    let rows = if dice.one_in(40) { MOST } else { rows };
    (dice.between(1, 3), rows)
}

/// An end, the number beside it, or any between.
pub(super) fn between(dice: &mut Dice, least: i64, greatest: i64) -> i64 {
    let any = dice.between(least, greatest);
    let (above, below) = ((least + 1).min(greatest), (greatest - 1).max(least));
    *dice.pick(&[least, above, any, any, below, greatest])
}

pub(super) fn open(dice: &mut Dice, rows: i64) -> Open {
    let posts = between(dice, FIRST_BLOCK + 1, rows);
    let further = between(dice, 0, (posts - 1 - FIRST_BLOCK) / 170);
    let read = FIRST_BLOCK + 170 * further;
    Open {
        posts,
        row: between(dice, 0, rows - posts),
        datum: between(dice, -FURTHEST_DATUM, FURTHEST_DATUM),
        least: dice.between(-5_000_000, 0) * 10_000_000,
        greatest: dice.between(0, 5_000_000) * 10_000_000,
        read,
        running: running(dice, read),
    }
}

/// Posts, taken, filled and sum, anywhere between the least and the most there can be.
pub(super) fn count(dice: &mut Dice, kept: &mut Kept) {
    let (blocks, read) = match kept.has_open() {
        true => (blocks_of(kept.open.read), kept.open.read),
        false => (kept.finished, 0),
    };
    kept.posts = between(dice, kept.closed, MOST * kept.closed) + read;
    kept.taken = 1 + between(dice, kept.closed, 13 * kept.closed) + blocks;
    kept.running = running(dice, kept.posts);
    kept.sum = sum(dice, kept.running.filled);
}

/// Whatever the extremes are: no clause ties the sum to them.
fn sum(dice: &mut Dice, filled: i64) -> i64 {
    let reach = filled * FURTHEST;
    between(dice, -reach, reach)
}

fn running(dice: &mut Dice, posts: i64) -> Running {
    let filled = between(dice, 0, posts);
    if filled == 0 {
        return Running::default();
    }
    let (one, other) = (
        between(dice, -FURTHEST, FURTHEST),
        between(dice, -FURTHEST, FURTHEST),
    );
    let other = *dice.pick(&[one, other, other]);
    Running {
        filled,
        low: one.min(other),
        high: one.max(other),
    }
}

/// Numbers without a meaning in this session: the first column before any profile, the
/// extremes of nothing, the profile where none is open.
pub(super) fn leave_open_what_is_free(dice: &mut Dice, kept: &mut Kept) {
    if kept.closed == 0 && !kept.has_open() {
        kept.column = unsigned(dice);
    }
    free_extremes(dice, &mut kept.running);
    if kept.has_open() {
        free_extremes(dice, &mut kept.open.running);
        return;
    }
    kept.open = Open {
        posts: 0,
        row: unsigned(dice),
        datum: signed(dice),
        least: signed(dice),
        greatest: signed(dice),
        read: unsigned(dice),
        running: Running {
            filled: unsigned(dice),
            low: signed(dice),
            high: signed(dice),
        },
    };
}

fn free_extremes(dice: &mut Dice, running: &mut Running) {
    if running.filled == 0 {
        running.low = signed(dice);
        running.high = signed(dice);
    }
}

fn unsigned(dice: &mut Dice) -> i64 {
    let any = (dice.roll() >> 1) as i64;
    *dice.pick(&[0, 0, 1, 146, 2048, 1 << 32, any, i64::MAX])
}

fn signed(dice: &mut Dice) -> i64 {
    let any = dice.roll() as i64;
    *dice.pick(&[0, 0, -1, 900, FURTHEST + 1, any, i64::MIN, i64::MAX])
}
