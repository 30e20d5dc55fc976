//! Sessions of the Canadian family, bent at each of its clauses, and sessions whose family is
//! exchanged for another, known or not (02, request 2; READINGS-02, 2.1, 2.2, 2.13, 2.14, 2.19).

use super::sessions::{self, BEGUN, BETWEEN, CLOSED, FRESH, INSIDE};
use super::{alter, alter_each_number, alter_several, awaited, fit, plain, Visit};
use crate::block::{HUNDREDTH, UNIT};
use crate::desk::{Delivery, Left};
use crate::dice::Dice;
use crate::family::{is_known, CANADIAN, CANADIAN_SIDE, USGS};
use crate::kept::{place, sound, Kept, HELD, NUMBERS};
use crate::kind::{
    CORNER_DISAGREES, GRID_TOO_SHORT, SHEET_COMPLETE, TOO_EARLY, UNSOUND, WRONG_LENGTH,
};
use crate::sheets::aimed::damaged_profile_block;
use crate::sheets::canadian;

/// There is no record C.
const STAGES: [usize; 5] = [FRESH, BEGUN, BETWEEN, INSIDE, CLOSED];

pub fn canadian(dice: &mut Dice) -> Kept {
    let stage = *dice.pick(&[
        FRESH, BEGUN, BETWEEN, BETWEEN, INSIDE, INSIDE, INSIDE, CLOSED,
    ]);
    canadian_of_stage(dice, stage)
}

/// A sound Canadian session, most often one that no list of blocks leads to.
fn canadian_of_stage(dice: &mut Dice, stage: usize) -> Kept {
    let mut kept = Kept::opened(CANADIAN);
    if stage == FRESH {
        return kept;
    }
    kept.header = canadian::head(dice).numbers;
    kept.closed = match stage {
        BEGUN => 0,
        CLOSED => CANADIAN_SIDE,
        _ => sessions::between(dice, 0, CANADIAN_SIDE - 1),
    };
    if stage == INSIDE {
        kept.open = sessions::open(dice, CANADIAN_SIDE);
        (kept.open.posts, kept.open.row) = (CANADIAN_SIDE, 0);
    }
    sessions::count(dice, &mut kept);
    if dice.one_in(2) {
        sessions::leave_open_what_is_free(dice, &mut kept);
    }
    kept
}

/// At times a damaged block in its place.
pub fn the_block_awaited(dice: &mut Dice, visit: &mut Visit) {
    for turn in 0..4_000 {
        let mut kept = canadian(dice);
        let (mut delivery, sent) = awaited(dice, &mut kept);
        if turn % 2 == 1 {
            delivery.block = damaged_profile_block(dice, &kept.header, &sent);
        }
        let next = delivery.number;
        delivery.number = *dice.pick(&[next, next, next, next, next / 2, next + 1, u32::MAX]);
        visit(plain(delivery));
    }
}

pub fn one_number_altered(dice: &mut Dice, visit: &mut Visit) {
    for turn in 0..15 {
        let kept = canadian_of_stage(dice, STAGES[turn % STAGES.len()]);
        alter_each_number(dice, kept, visit);
    }
}

pub fn several_numbers_altered(dice: &mut Dice, visit: &mut Visit) {
    for _ in 0..2_000 {
        let kept = canadian(dice);
        alter_several(dice, kept, visit);
    }
}

type Bend = fn(&mut Dice, &mut Kept);

/// Where one number alone would bend another clause too, or none.
const BENDS: [Bend; 13] = [
    any_pair,
    any_pair,
    another_size,
    |_, kept| move_axis(kept, 0, 1),
    |_, kept| move_axis(kept, 1, 1),
    |dice, kept| kept.header.corners[dice.size(0, 1)] += 1,
    |_, kept| add_a_record_c(kept),
    |_, kept| {
        kept.header.accuracy = 1;
        add_a_record_c(kept);
    },
    |_, kept| kept.header.accuracy = 1,
    as_utm,
    read_to_the_end,
    fewer_posts,
    |_, kept| one_too_many(kept),
];

/// A session that has begun, bent once or, at times, twice.
pub fn bent(dice: &mut Dice, visit: &mut Visit) {
    for turn in 0..3_000 {
        let stage = *dice.pick(&STAGES[1..]);
        let mut kept = canadian_of_stage(dice, stage);
        let (mut delivery, _) = awaited(dice, &mut kept);
        BENDS[turn % BENDS.len()](dice, &mut kept);
        if dice.one_in(8) {
            dice.pick(&BENDS)(dice, &mut kept);
        }
        delivery.numbers[..NUMBERS].copy_from_slice(&kept.numbers());
        fit(dice, &mut delivery);
        visit(plain(delivery));
    }
}

/// Spacings of any pair, listed or not, the lattice full all the same: swapped pairs among them.
fn any_pair(dice: &mut Dice, kept: &mut Kept) {
    let hundredths = [75, 150, 300, 600, 1200, 100, 225];
    let mut spacing = || *dice.pick(&hundredths) * HUNDREDTH;
    let pair = (spacing(), spacing());
    let other = canadian::head_of(dice, pair).numbers;
    kept.header.corners = other.corners;
    (kept.header.x_spacing, kept.header.y_spacing) = (other.x_spacing, other.y_spacing);
}

/// A column or a row more, or fewer, as both corners there have it.
fn another_size(dice: &mut Dice, kept: &mut Kept) {
    let by = *dice.pick(&[-1, 1]);
    let (corners, spacing) = match dice.one_in(2) {
        true => ([4, 6], kept.header.x_spacing),
        false => ([3, 5], kept.header.y_spacing),
    };
    for corner in corners {
        kept.header.corners[corner] += by * spacing;
    }
}

/// All corners by a few spacings: nothing ties a session to the corner that was written out.
fn move_axis(kept: &mut Kept, axis: usize, by: i64) {
    let spacing = [kept.header.x_spacing, kept.header.y_spacing][axis];
    for corner in kept.header.corners.iter_mut().skip(axis).step_by(2) {
        *corner += by * spacing;
    }
}

fn add_a_record_c(kept: &mut Kept) {
    kept.finished = 1;
    kept.taken += 1;
}

/// What USGS rules would let pass.
fn as_utm(_: &mut Dice, kept: &mut Kept) {
    let header = &mut kept.header;
    (header.system, header.zone, header.ground_unit) = (1, 17, 2);
}

/// A profile open although all are closed, each of those of one post and one block at least.
fn one_too_many(kept: &mut Kept) {
    if kept.has_open() {
        let more = CANADIAN_SIDE - kept.closed;
        kept.closed += more;
        kept.posts += more;
        kept.taken += more;
    }
}

/// As many blocks as 1201 posts never need.
fn read_to_the_end(_: &mut Dice, kept: &mut Kept) {
    if kept.has_open() {
        let read = 146 + 7 * 170;
        let more = (read - kept.open.read) / 170;
        kept.open.read = read;
        kept.taken += more;
        kept.posts += 170 * more;
    }
}

/// What a rule of "at most 1201" would let pass.
fn fewer_posts(dice: &mut Dice, kept: &mut Kept) {
    if kept.has_open() {
        kept.open.posts = dice.between(kept.open.read + 1, CANADIAN_SIDE - 1);
        let room = CANADIAN_SIDE - kept.open.posts;
        kept.open.row = *dice.pick(&[0, 0, room]);
    }
}

/// A Canadian session of 3 by 3, which is sound as USGS too (READINGS-02, 2.19).
fn of_both(dice: &mut Dice) -> Kept {
    let stage = *dice.pick(&STAGES[1..]);
    let mut kept = canadian_of_stage(dice, stage);
    let other = canadian::head_of(dice, (3 * UNIT, 3 * UNIT)).numbers;
    kept.header = other;
    kept
}

/// Sound sessions with the family exchanged.
pub fn another_family(dice: &mut Dice, visit: &mut Visit) {
    for turn in 0..6_000 {
        let mut kept = match turn % 4 {
            0 => sessions::any(dice),
            1 => canadian(dice),
            2 => Kept::opened(*dice.pick(&[USGS, CANADIAN])),
            _ => of_both(dice),
        };
        let (mut delivery, _) = awaited(dice, &mut kept);
        let own = kept.header.family;
        let mut others = alter::families();
        others.extend([-1, i64::MIN, i64::MAX, -(1 << 32), u32::MAX.into()]);
        let any = *dice.pick(&others);
        let family = *dice.pick(&[any, any, 1 - own, 1 - own, own, own + (1 << 32)]);
        delivery.numbers[place::FAMILY] = family;
        if dice.one_in(6) {
            delivery.block.pop();
        }
        let next = delivery.number;
        delivery.number = *dice.pick(&[next, next, next, next.saturating_sub(1), next + 1]);
        visit(plain(delivery));
    }
}

/// One delivery, looked at for its family.
struct Look<'a> {
    before: &'a [i64],
    number: u32,
    result: u32,
}

impl Look<'_> {
    fn family(&self) -> i64 {
        self.before[place::FAMILY]
    }

    fn fresh(&self) -> bool {
        let mut others = self.before[..place::FAMILY].iter();
        others.all(|&number| number == 0)
    }

    fn canadian(&self) -> bool {
        self.family() == CANADIAN
    }

    fn begun(&self, result: u32) -> bool {
        self.canadian() && !self.fresh() && self.result == result
    }

    fn unknown(&self) -> bool {
        self.family() > CANADIAN && self.result == UNSOUND
    }

    /// Unsound as it is, though sound with this family in its place.
    fn sound_with(&self, family: i64) -> bool {
        let mut numbers = self.before.to_vec();
        numbers[place::FAMILY] = family;
        sound(&numbers).is_some()
    }

    fn of_both(&self) -> bool {
        !self.fresh() && self.sound_with(USGS) && self.sound_with(CANADIAN)
    }

    fn cut_to_32_bits(&self, family: i64) -> bool {
        self.family() == family + (1 << 32) && self.unknown() && self.sound_with(family)
    }
}

type Sight = (&'static str, fn(&Look) -> bool);

/// What deliveries must show about the family.
const SIGHTS: [Sight; 23] = [
    ("Canadian, fresh, grid short", |l| {
        l.canadian() && l.fresh() && l.result == GRID_TOO_SHORT
    }),
    ("Canadian, fresh, kind 15", |l| {
        l.canadian() && l.fresh() && l.result == CORNER_DISAGREES
    }),
    ("Canadian, fresh, early", |l| {
        l.canadian() && l.fresh() && l.result == TOO_EARLY
    }),
    ("Canadian, held", |l| l.begun(HELD)),
    ("Canadian, early", |l| l.begun(TOO_EARLY)),
    ("Canadian, complete", |l| l.begun(SHEET_COMPLETE)),
    ("Canadian, grid short", |l| l.begun(GRID_TOO_SHORT)),
    ("Canadian, unsound", |l| l.begun(UNSOUND)),
    ("Canadian, sound as USGS only", |l| {
        l.begun(UNSOUND) && l.sound_with(USGS)
    }),
    ("USGS, sound as Canadian only", |l| {
        l.family() == USGS && l.result == UNSOUND && l.sound_with(CANADIAN)
    }),
    ("sound as both, asked as USGS", |l| {
        l.family() == USGS && l.of_both()
    }),
    ("sound as both, asked as Canadian", |l| {
        l.canadian() && l.of_both()
    }),
    ("unknown, all else zero", |l| l.unknown() && l.fresh()),
    ("unknown, sheet begun", |l| l.unknown() && !l.fresh()),
    ("unknown, of a late block", |l| {
        l.unknown() && i64::from(l.number) < l.before[place::TAKEN]
    }),
    ("unknown, sound as both", |l| l.unknown() && l.of_both()),
    ("unknown, another length", |l| {
        !is_known(l.family()) && l.result == WRONG_LENGTH
    }),
    ("2^32, all else zero", |l| {
        l.cut_to_32_bits(USGS) && l.fresh()
    }),
    ("2^32, sheet begun", |l| {
        l.cut_to_32_bits(USGS) && !l.fresh()
    }),
    ("2^32 + 1, all else zero", |l| {
        l.cut_to_32_bits(CANADIAN) && l.fresh()
    }),
    ("2^32 + 1, sheet begun", |l| {
        l.cut_to_32_bits(CANADIAN) && !l.fresh()
    }),
    ("below zero, all else zero", |l| {
        l.family() < 0 && l.result == UNSOUND && l.fresh()
    }),
    ("below zero, sheet begun", |l| {
        l.family() < 0 && l.result == UNSOUND && !l.fresh()
    }),
];

pub fn sights() -> Vec<&'static str> {
    SIGHTS.iter().map(|&(name, _)| name).collect()
}

/// Which of these one delivery shows.
pub fn shown(delivery: &Delivery, left: &Left) -> Vec<&'static str> {
    if delivery.numbers.len() < NUMBERS {
        return Vec::new();
    }
    let look = Look {
        before: &delivery.numbers[..NUMBERS],
        number: delivery.number,
        result: left.told.result,
    };
    let seen = SIGHTS.iter().filter(|(_, seen)| seen(&look));
    seen.map(|&(name, _)| name).collect()
}
