//! Sessions whose sum stands at its limit, just past it, or where a careless test of it would
//! wrap (02, request 1; READINGS-02, the slips of request 1).

use super::{awaited, fit, plain, sessions, Visit};
use crate::block::{BLOCK_LENGTH, HUNDREDTH, UNIT};
use crate::desk::{Delivery, Left};
use crate::dice::Dice;
use crate::kept::clauses::{broken, reach_of_sum, FURTHEST, SUM};
use crate::kept::{place, Kept, Running, DONE, NUMBERS};
use crate::kind::{UNSOUND, WRONG_EXTREME};
use crate::meaning::VOID_CELL;
use crate::record_a::Header;
use crate::sheets::posts;

/// Counts of filled cells for which the product with the reach of one passes 63 or 64 bits,
/// or comes round to 0; no session has as many posts.
const PAST_ANY_PRODUCT: [i64; 4] = [i64::MAX / FURTHEST + 1, 1 << 42, 1 << 62, i64::MAX];

/// Every stage with each count of filled cells and each sum that the clause may be about.
pub fn at_their_limits(dice: &mut Dice, visit: &mut Visit) {
    for turn in 0..90 {
        let mut kept = sessions::of_stage(dice, turn % sessions::STAGES);
        let (base, _) = awaited(dice, &mut kept);
        for filled in counts(&kept) {
            for sum in telling(filled) {
                let mut delivery = base.clone();
                delivery.numbers[place::FILLED] = filled;
                delivery.numbers[place::SUM] = sum;
                fit(dice, &mut delivery);
                visit(plain(delivery));
            }
        }
    }
}

fn counts(kept: &Kept) -> Vec<i64> {
    let mut counts = vec![0, 1, kept.running.filled, kept.posts / 2, kept.posts];
    counts.extend(PAST_ANY_PRODUCT);
    counts.sort_unstable();
    counts.dedup();
    counts
}

/// Both ends of the reach of so many filled cells and what lies beside them; the ends of 64
/// bits; sums that are none once they are cut to 32 bits.
fn telling(filled: i64) -> Vec<i64> {
    let reach = reach_of_sum(filled);
    let beside = [reach - 1, reach, reach + 1].into_iter();
    let both = beside.flat_map(|sum| [sum, -sum]);
    let mut sums: Vec<i64> = both.filter_map(|sum| i64::try_from(sum).ok()).collect();
    sums.extend([i64::MIN, i64::MIN + 1, i64::MAX, 0, 1, -1]);
    sums.extend([1 << 32, -(1 << 32), 1 << 31, -(1 << 31)]);
    sums.sort_unstable();
    sums.dedup();
    sums
}

/// The last block of the largest sheet, each of its cells filled by this post and datum.
pub fn furthest(dice: &mut Dice, header: &Header, post: i64, datum: i64) -> Delivery {
    let mut kept = sessions::before_the_last_profile(dice, header);
    sessions::reach_the_last_block(&mut kept);
    fill(&mut kept, post * 100 + datum);
    kept.open.datum = datum;
    let left = (kept.open.posts - kept.open.read) as usize;
    let mut block = vec![b' '; BLOCK_LENGTH];
    posts::put_posts(dice, &mut block, 1, &vec![post; left]);
    Delivery {
        numbers: kept.numbers().to_vec(),
        number: kept.taken as u32,
        block,
        grid: vec![VOID_CELL; header.cells()],
        room: 2,
    }
}

/// All posts so far at this height, and all extremes stated to be it.
fn fill(kept: &mut Kept, height: i64) {
    let running = |filled: i64| Running {
        filled,
        low: height,
        high: height,
    };
    kept.running = running(kept.posts);
    kept.open.running = running(kept.open.read);
    kept.sum = height * kept.posts;
    kept.header.z_spacing = UNIT;
    let stated = height * HUNDREDTH;
    (kept.open.least, kept.open.greatest) = (stated, stated);
    (kept.header.stated_least, kept.header.stated_greatest) = (stated, stated);
}

/// One delivery, looked at for its sum.
struct Look<'a> {
    before: &'a [i64],
    after: &'a [i64],
    result: u32,
}

impl Look<'_> {
    fn filled(&self) -> i64 {
        self.before[place::FILLED]
    }

    fn sum(&self) -> i64 {
        self.before[place::SUM]
    }

    /// How far the sum before lies past its limit: 0 just at it.
    fn past(&self) -> i128 {
        i128::from(self.sum()).abs() - reach_of_sum(self.filled())
    }

    fn grown(&self) -> bool {
        self.result == DONE && self.after[place::FILLED] > self.filled()
    }

    fn grown_at_its_limit(&self) -> bool {
        self.grown() && self.filled() > 0 && self.past() == 0
    }

    fn unsound(&self) -> bool {
        self.result == UNSOUND
    }

    fn unsound_by_it_alone(&self) -> bool {
        self.unsound() && broken(self.before) == [SUM]
    }

    fn just_past(&self) -> bool {
        self.unsound_by_it_alone() && self.filled() > 0 && self.past() == 1
    }

    fn all_else_zero(&self) -> bool {
        let mut others = (0..NUMBERS).filter(|&number| number != place::SUM);
        others.all(|number| self.before[number] == 0)
    }
}

type Sight = (&'static str, fn(&Look) -> bool);

/// What deliveries must show about the sum. That a refusal keeps it is said of all numbers.
const SIGHTS: [Sight; 14] = [
    ("at its greatest, and grown", |l| {
        l.grown_at_its_limit() && l.sum() > 0
    }),
    ("at its least, and grown", |l| {
        l.grown_at_its_limit() && l.sum() < 0
    }),
    ("a hundredth past its greatest", |l| {
        l.just_past() && l.sum() > 0
    }),
    ("a hundredth past its least", |l| {
        l.just_past() && l.sum() < 0
    }),
    ("the least number there is", |l| {
        l.unsound_by_it_alone() && l.sum() == i64::MIN
    }),
    ("the greatest number there is", |l| {
        l.unsound_by_it_alone() && l.sum() == i64::MAX
    }),
    ("not zero, nothing filled", |l| {
        l.unsound_by_it_alone() && l.filled() == 0
    }),
    ("not zero, all else zero", |l| {
        l.unsound() && l.all_else_zero()
    }),
    ("filled past any product", |l| {
        l.unsound() && PAST_ANY_PRODUCT.contains(&l.filled())
    }),
    ("past 32 bits above zero", |l| {
        l.grown() && l.after[place::SUM] > i64::from(i32::MAX)
    }),
    ("past 32 bits below zero", |l| {
        l.grown() && l.after[place::SUM] < i64::from(i32::MIN)
    }),
    ("grown, the profile still open", |l| {
        l.grown() && l.after[place::OPEN_POSTS] > 0
    }),
    ("kept by a closing rule", |l| {
        l.result == WRONG_EXTREME && l.sum() != 0
    }),
    ("kept by a record C", |l| {
        l.after[place::FINISHED] > l.before[place::FINISHED] && l.sum() != 0
    }),
];

pub fn sights() -> Vec<&'static str> {
    SIGHTS.iter().map(|&(name, _)| name).collect()
}

/// Which of these one delivery shows.
pub fn shown(delivery: &Delivery, left: &Left) -> Vec<&'static str> {
    if delivery.numbers.len() < NUMBERS {
        return Vec::new();
    }
    let look = Look {
        before: &delivery.numbers,
        after: &left.numbers,
        result: left.told.result,
    };
    let seen = SIGHTS.iter().filter(|(_, seen)| seen(&look));
    seen.map(|&(name, _)| name).collect()
}
