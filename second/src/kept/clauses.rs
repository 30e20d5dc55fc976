//! When the numbers of a session are sound (01, "What a delivery answers"; 02, request 1, for
//! the sum, request 2 for the families): clause by clause, each with a name, so that a run can
//! tell which of them it has seen broken.

use super::{blocks_of, Kept, Open, Running, NUMBERS};
use crate::block::{HUNDREDTH, UNIT};
use crate::family::{is_ground_spacing, is_known, rules_of, Rules, CANADIAN, CANADIAN_SIDE, MOST};
use crate::profile::{POSTS_OF_FIRST_BLOCK, POSTS_OF_FURTHER_BLOCK};

/// A filled cell lies within so many hundredths of zero.
pub const FURTHEST: i64 = 4_276_700;
/// A datum lies within so many hundredths of zero.
pub const FURTHEST_DATUM: i64 = 1_000_000;
const MOST_BLOCKS: i64 = 13;
/// A real has at most so many digits from its first to its last that is not zero.
const DIGITS: usize = 15;

pub const TOO_FEW: &str = "39 numbers or more";
pub const NEGATIVE: &str = "no unsigned number below zero";
/// "A family we don't know is unsound", in every state.
pub const FAMILY: &str = "a family we know";
pub const SUM: &str = "sum within reach of the filled";

pub type Clause = (&'static str, fn(&Kept) -> bool);

/// Those of a session that is not fresh. One that needs another to have a meaning is
/// kept while that other is broken. First the numbers of record A that every family has, and
/// all that counts, which no family tightens (READINGS-02, 2.13).
const OF_EVERY_FAMILY: &[Clause] = &[
    ("level of the family", |k| {
        rules(k).levels.contains(&k.header.level)
    }),
    ("system of the family", |k| {
        rules(k).systems.contains(&k.header.system)
    }),
    ("zone of the system", |k| {
        (rules(k).zones)(k.header.system).contains(&k.header.zone)
    }),
    ("ground unit of the system", |k| {
        (rules(k).ground_units)(k.header.system).contains(&k.header.ground_unit)
    }),
    ("vertical unit of the family", |k| {
        rules(k).vertical_units.contains(&k.header.vertical_unit)
    }),
    ("corners are reals", corners_are_reals),
    ("stated least is a real", |k| is_real(k.header.stated_least)),
    ("stated greatest is a real", |k| {
        is_real(k.header.stated_greatest)
    }),
    ("accuracy of the family", |k| {
        rules(k).accuracies.contains(&k.header.accuracy)
    }),
    ("z spacing of the unit", is_height_spacing),
    ("SW.x < SE.x", |k| k.header.corners[0] < k.header.corners[6]),
    ("NW.x < NE.x", |k| k.header.corners[2] < k.header.corners[4]),
    ("SW.y < NW.y", |k| k.header.corners[1] < k.header.corners[3]),
    ("SE.y < NE.y", |k| k.header.corners[7] < k.header.corners[5]),
    ("closed at most n", |k| k.closed <= k.header.n),
    ("below n if one is open", |k| {
        !k.has_open() || k.closed != k.header.n
    }),
    ("open: row and posts in the rows", |k| {
        rows(k).is_none_or(|rows| open(k).is_none_or(|open| fits(open, rows)))
    }),
    ("open: datum within 10,000", |k| {
        open(k).is_none_or(|open| within(open.datum, FURTHEST_DATUM))
    }),
    ("open: least is a real", |k| {
        open(k).is_none_or(|open| is_real(open.least))
    }),
    ("open: greatest is a real", |k| {
        open(k).is_none_or(|open| is_real(open.greatest))
    }),
    ("open: read in whole blocks", |k| {
        open(k).is_none_or(|open| in_whole_blocks(open.read))
    }),
    ("open: read below its posts", |k| {
        open(k).is_none_or(|open| open.read < open.posts)
    }),
    ("first column leaves room for n", first_column_fits),
    ("posts at least the closed", |k| {
        i128::from(k.posts) >= wide(k.closed) + posts_read(k)
    }),
    ("posts at most 2048 a profile", |k| {
        i128::from(k.posts) <= wide(MOST) * wide(k.closed) + posts_read(k)
    }),
    ("taken at least a block a profile", |k| {
        wide(k.taken) >= 1 + wide(k.closed) + blocks_beside(k)
    }),
    ("taken at most 13 a profile", |k| {
        wide(k.taken) <= 1 + wide(MOST_BLOCKS) * wide(k.closed) + blocks_beside(k)
    }),
    ("a record C once at most", |k| k.finished <= 1),
    ("a record C only with accuracy 1", |k| {
        k.finished == 0 || k.header.accuracy != 0
    }),
    ("a record C only after n", |k| {
        k.finished == 0 || k.closed >= k.header.n
    }),
    ("filled at most posts", |k| k.running.filled <= k.posts),
    ("open: filled at most read", |k| {
        open(k).is_none_or(|open| open.running.filled <= open.read)
    }),
    ("low not above high", |k| ordered(&k.running)),
    ("low within reach", |k| low_within_reach(&k.running)),
    ("high within reach", |k| high_within_reach(&k.running)),
    ("open: low not above high", |k| {
        open(k).is_none_or(|open| ordered(&open.running))
    }),
    ("open: low within reach", |k| {
        open(k).is_none_or(|open| low_within_reach(&open.running))
    }),
    ("open: high within reach", |k| {
        open(k).is_none_or(|open| high_within_reach(&open.running))
    }),
    (SUM, |k| wide(k.sum).abs() <= reach_of_sum(k.running.filled)),
];

/// What document 01 asks of the lattice and of n.
const OF_USGS: &[Clause] = &[
    ("x spacing 1 to 9999, whole", |k| {
        is_ground_spacing(k.header.x_spacing)
    }),
    ("y spacing 1 to 9999, whole", |k| {
        is_ground_spacing(k.header.y_spacing)
    }),
    ("n at least 1", |k| k.header.n >= 1),
    ("1 column or more", |k| columns(k).is_none_or(|c| c >= 1)),
    ("2048 columns or fewer", |k| {
        columns(k).is_none_or(|c| c <= MOST)
    }),
    ("1 row or more", |k| rows(k).is_none_or(|r| r >= 1)),
    ("2048 rows or fewer", |k| rows(k).is_none_or(|r| r <= MOST)),
    ("n at most the columns", |k| {
        columns(k).is_none_or(|c| k.header.n <= c)
    }),
];

/// What request 2 asks instead.
const OF_CANADIAN: &[Clause] = &[
    ("spacings of the list", spacings_are_allowed),
    ("1201 profiles", |k| k.header.n == CANADIAN_SIDE),
    ("1201 columns", |k| {
        columns(k).is_none_or(|c| c == CANADIAN_SIDE)
    }),
    ("1201 rows", |k| rows(k).is_none_or(|r| r == CANADIAN_SIDE)),
    ("open: 1201 posts", |k| {
        open(k).is_none_or(|open| open.posts == CANADIAN_SIDE)
    }),
];

/// All that a session of this family, not fresh, has to keep.
pub fn clauses_of(family: i64) -> impl Iterator<Item = &'static Clause> {
    let own = match family {
        CANADIAN => OF_CANADIAN,
        _ => OF_USGS,
    };
    OF_EVERY_FAMILY.iter().chain(own)
}

fn rules(kept: &Kept) -> &'static Rules {
    rules_of(kept.header.family).expect("looked at before all clauses")
}

/// How far from zero the sum of so many filled cells may lie. Neither their extremes nor the
/// open profile's have a say in it (READINGS-02, 1.2).
pub fn reach_of_sum(filled: i64) -> i128 {
    wide(filled) * wide(FURTHEST)
}

/// Numbers that a session keeps with a sign: corners, stated and running extremes, datum,
/// sum.
pub fn is_signed(place: usize) -> bool {
    matches!(place, 5..=14 | 24 | 25 | 30..=32 | 35..=37)
}

/// The names of the clauses that these numbers break; none if they are sound.
pub fn broken(numbers: &[i64]) -> Vec<&'static str> {
    if numbers.len() < NUMBERS {
        return vec![TOO_FEW];
    }
    let numbers = &numbers[..NUMBERS];
    let negative = |place: usize| !is_signed(place) && numbers[place] < 0;
    if (0..NUMBERS).any(negative) {
        return vec![NEGATIVE];
    }
    let kept = Kept::of(numbers);
    let family = kept.header.family;
    if !is_known(family) {
        return vec![FAMILY];
    }
    if kept == Kept::opened(family) {
        return Vec::new();
    }
    let broken = clauses_of(family).filter(|(_, holds)| !holds(&kept));
    broken.map(|&(name, _)| name).collect()
}

fn wide(number: i64) -> i128 {
    i128::from(number)
}

fn within(number: i64, reach: i64) -> bool {
    (-reach..=reach).contains(&number)
}

/// What a real field can hold: below 1,000,000,000, of 15 digits (READINGS 25).
pub fn is_real(billionths: i64) -> bool {
    let size = billionths.unsigned_abs();
    let digits = size.to_string();
    size < UNIT as u64 * UNIT as u64 && digits.trim_end_matches('0').len() <= DIGITS
}

fn corners_are_reals(kept: &Kept) -> bool {
    kept.header.corners.iter().all(|&corner| is_real(corner))
}

fn spacings_are_allowed(kept: &Kept) -> bool {
    let header = &kept.header;
    rules(kept).allow_spacings(header.x_spacing, header.y_spacing)
}

fn is_height_spacing(kept: &Kept) -> bool {
    let finest = match kept.header.vertical_unit {
        1 => UNIT / 10,
        _ => HUNDREDTH,
    };
    let spacing = kept.header.z_spacing;
    (1..=UNIT).contains(&spacing) && spacing % finest == 0
}

/// Where a family lists its spacings in pairs, one of them has no meaning alone.
fn may_be_spacing(kept: &Kept, spacing: i64) -> bool {
    match rules(kept).pairs {
        None => is_ground_spacing(spacing),
        Some(_) => spacings_are_allowed(kept),
    }
}

/// None where the spacing or a corner is at fault, and there is no lattice to speak of.
fn columns(kept: &Kept) -> Option<i64> {
    let lies = may_be_spacing(kept, kept.header.x_spacing) && corners_are_reals(kept);
    lies.then(|| kept.header.columns().count())
}

fn rows(kept: &Kept) -> Option<i64> {
    let lies = may_be_spacing(kept, kept.header.y_spacing) && corners_are_reals(kept);
    lies.then(|| kept.header.rows().count())
}

fn open(kept: &Kept) -> Option<&Open> {
    kept.has_open().then_some(&kept.open)
}

/// Posts are then 2048 at most, since the rows are.
fn fits(open: &Open, rows: i64) -> bool {
    wide(open.row) + wide(open.posts) <= wide(rows)
}

fn in_whole_blocks(read: i64) -> bool {
    let further = read - POSTS_OF_FIRST_BLOCK as i64;
    further >= 0 && further % POSTS_OF_FURTHER_BLOCK as i64 == 0
}

/// It has a meaning once a profile has begun.
fn first_column_fits(kept: &Kept) -> bool {
    let begun = kept.closed > 0 || kept.has_open();
    let fits = |columns: i64| wide(kept.column) + wide(kept.header.n) <= wide(columns);
    !begun || columns(kept).is_none_or(fits)
}

fn posts_read(kept: &Kept) -> i128 {
    open(kept).map_or(0, |open| wide(open.read))
}

/// The open profile's blocks, and record C.
fn blocks_beside(kept: &Kept) -> i128 {
    let of_open = |open: &Open| match open.read {
        0..=1_000_000 => wide(blocks_of(open.read)),
        // Far past any profile, and broken by clauses of its own.
        _ => 0,
    };
    open(kept).map_or(0, of_open) + wide(kept.finished)
}

fn ordered(running: &Running) -> bool {
    running.filled == 0 || running.low <= running.high
}

fn low_within_reach(running: &Running) -> bool {
    running.filled == 0 || running.low >= -FURTHEST
}

fn high_within_reach(running: &Running) -> bool {
    running.filled == 0 || running.high <= FURTHEST
}
