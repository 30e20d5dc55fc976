//! Deliveries to sessions that no line brought: numbers made up, clause by clause, with
//! the block that would come next, a damaged one, or none that fits.

pub mod alter;
pub mod blocks;
pub mod families;
pub mod runs;
pub mod sessions;
pub mod sums;

use crate::desk::Delivery;
use crate::dice::Dice;
use crate::kept::{self, Kept, DONE, NUMBERS};
use crate::meaning::VOID_CELL;
use crate::record_a::{self, Header, MOST};
use crate::sheets::aimed::damaged_profile_block;
use crate::sheets::posts::OUTERMOST;
use crate::sheets::{head, Sent};

/// A grid is made as long as its session asks for up to here; in place of a longer one there are
/// a few cells. Canadian sheets get all of theirs from compare_canadian.
const MOST_CELLS: usize = 30_000;

/// A delivery, and which number of a sound session of which family was altered for it, if just
/// one was.
pub struct Crafted {
    pub delivery: Delivery,
    pub altered: Option<(i64, usize)>,
}

/// What is done with a delivery once it is made.
pub type Visit<'a> = dyn FnMut(Crafted) + 'a;

pub struct Family {
    pub name: &'static str,
    pub make: fn(&mut Dice, &mut Visit),
}

pub const FAMILIES: &[Family] = &[
    Family {
        name: "the block awaited",
        make: the_block_awaited,
    },
    Family {
        name: "one number altered",
        make: one_number_altered,
    },
    Family {
        name: "several numbers altered",
        make: several_numbers_altered,
    },
    Family {
        name: "sums at their limits",
        make: sums::at_their_limits,
    },
    Family {
        name: "lattices at their limits",
        make: lattices,
    },
    Family {
        name: "damaged blocks",
        make: damaged_blocks,
    },
    Family {
        name: "lengths and numbers",
        make: lengths_and_numbers,
    },
    Family {
        name: "grids short and long",
        make: grids,
    },
    Family {
        name: "too few numbers",
        make: too_few_numbers,
    },
    Family {
        name: "any numbers at all",
        make: any_numbers,
    },
    Family {
        name: "the largest sheet",
        make: the_largest_sheet,
    },
    Family {
        name: "Canadian, the block awaited",
        make: families::the_block_awaited,
    },
    Family {
        name: "Canadian, one number altered",
        make: families::one_number_altered,
    },
    Family {
        name: "Canadian, several altered",
        make: families::several_numbers_altered,
    },
    Family {
        name: "Canadian, bent at a clause",
        make: families::bent,
    },
    Family {
        name: "another family",
        make: families::another_family,
    },
];

/// A delivery to this session of the block it awaits, which may move its stated extremes.
fn awaited(dice: &mut Dice, kept: &mut Kept) -> (Delivery, Sent) {
    let sent = blocks::awaited(dice, kept);
    let delivery = Delivery {
        numbers: with_more(dice, kept),
        number: kept.taken as u32,
        block: sent.bytes.clone(),
        grid: grid(dice, cells_of(kept, &sent)),
        room: dice.size(0, 4),
    };
    (delivery, sent)
}

/// At times there are numbers past the session's own, any at all.
fn with_more(dice: &mut Dice, kept: &Kept) -> Vec<i64> {
    let mut numbers = kept.numbers().to_vec();
    for _ in 0..*dice.pick(&[0, 0, 0, 1, 3]) {
        let any = dice.roll() as i64;
        numbers.push(*dice.pick(&[any, 0, -1, i64::MAX]));
    }
    numbers
}

/// Cells of the sheet, which for a fresh session only its block 0 knows.
fn cells_of(kept: &Kept, sent: &Sent) -> usize {
    match kept.taken {
        0 => record_a::check_of(kept.header.family, &sent.bytes).map_or(1, |header| header.cells()),
        _ => kept.header.cells(),
    }
}

/// Most often just long enough; what it holds is no delivery's work.
fn grid(dice: &mut Dice, need: usize) -> Vec<i32> {
    let spare = dice.size(1, 9);
    let need = if need > MOST_CELLS { 0 } else { need };
    let length = need + *dice.pick(&[0, 0, 1, spare]);
    filled_grid(dice, length)
}

fn filled_grid(dice: &mut Dice, length: usize) -> Vec<i32> {
    let any = dice.roll() as i32;
    let held = *dice.pick(&[7, VOID_CELL, any]);
    (0..length).map(|cell| held ^ (cell as i32 & 3)).collect()
}

fn plain(delivery: Delivery) -> Crafted {
    Crafted {
        delivery,
        altered: None,
    }
}

fn the_block_awaited(dice: &mut Dice, visit: &mut Visit) {
    for _ in 0..24_000 {
        let mut kept = sessions::any(dice);
        let (delivery, _) = awaited(dice, &mut kept);
        visit(plain(delivery));
    }
}

/// Every number of a session, alone, with each value that some clause may be about. The
/// delivery is of the block that the session awaited before.
fn one_number_altered(dice: &mut Dice, visit: &mut Visit) {
    for turn in 0..90 {
        let kept = sessions::of_stage(dice, turn % sessions::STAGES);
        alter_each_number(dice, kept, visit);
    }
}

fn alter_each_number(dice: &mut Dice, mut kept: Kept, visit: &mut Visit) {
    let (base, _) = awaited(dice, &mut kept);
    for place in 0..NUMBERS {
        for value in alter::telling(&kept, place) {
            let mut delivery = base.clone();
            delivery.numbers[place] = value;
            fit(dice, &mut delivery);
            visit(Crafted {
                delivery,
                altered: Some((kept.header.family, place)),
            });
        }
    }
}

/// The number that the altered session awaits, and the grid that it asks for.
fn fit(dice: &mut Dice, delivery: &mut Delivery) {
    let Some(kept) = kept::sound(&delivery.numbers) else {
        return;
    };
    delivery.number = kept.taken as u32;
    delivery.room = dice.size(0, 4);
    if kept.taken > 0 {
        delivery.grid = grid(dice, kept.header.cells());
    }
}

fn several_numbers_altered(dice: &mut Dice, visit: &mut Visit) {
    for _ in 0..14_000 {
        let kept = sessions::any(dice);
        alter_several(dice, kept, visit);
    }
}

fn alter_several(dice: &mut Dice, mut kept: Kept, visit: &mut Visit) {
    let (mut delivery, _) = awaited(dice, &mut kept);
    for _ in 0..dice.size(2, 4) {
        let place = dice.size(0, NUMBERS - 1);
        let values = alter::telling(&kept, place);
        delivery.numbers[place] = *dice.pick(&values);
    }
    fit(dice, &mut delivery);
    visit(plain(delivery));
}

/// No columns or rows, one, 2048, one more; with n at the columns and past them.
fn lattices(dice: &mut Dice, visit: &mut Visit) {
    for _ in 0..6_000 {
        let mut kept = sessions::any(dice);
        let (mut delivery, _) = awaited(dice, &mut kept);
        alter::stretch(dice, &mut kept);
        let extra = delivery.numbers.split_off(NUMBERS);
        delivery.numbers = kept.numbers().to_vec();
        delivery.numbers.extend(extra);
        fit(dice, &mut delivery);
        visit(plain(delivery));
    }
}

fn damaged_blocks(dice: &mut Dice, visit: &mut Visit) {
    for _ in 0..20_000 {
        let mut kept = sessions::any(dice);
        let (mut delivery, sent) = awaited(dice, &mut kept);
        delivery.block = damaged_profile_block(dice, &kept.header, &sent);
        visit(plain(delivery));
    }
}

/// Late, next, early and far numbers, with blocks of every length; the session is sound
/// or not.
fn lengths_and_numbers(dice: &mut Dice, visit: &mut Visit) {
    for _ in 0..9_000 {
        let mut kept = sessions::any(dice);
        let (mut delivery, _) = awaited(dice, &mut kept);
        let next = delivery.number;
        let (late, any) = (dice.size(0, next as usize) as u32, dice.roll() as u32);
        delivery.number = *dice.pick(&[
            next,
            next,
            next.saturating_sub(1),
            late,
            0,
            next + 1,
            next.wrapping_add(1 << 16),
            next | 1 << 31,
            any,
            u32::MAX,
        ]);
        if dice.one_in(2) {
            let any = dice.size(0, 2048);
            let length = *dice.pick(&[0, 1, 1023, 1025, 2048, any, 66_560]);
            delivery.block.resize(length, b' ');
        }
        if dice.one_in(4) {
            let place = dice.size(0, NUMBERS - 1);
            let values = alter::telling(&kept, place);
            delivery.numbers[place] = *dice.pick(&values);
        }
        visit(plain(delivery));
    }
}

/// One cell short, any number short, none; longer ones too. Blocks right and damaged, so
/// that the order of the kinds shows.
fn grids(dice: &mut Dice, visit: &mut Visit) {
    for _ in 0..9_000 {
        let mut kept = sessions::any(dice);
        let (mut delivery, sent) = awaited(dice, &mut kept);
        let need = cells_of(&kept, &sent);
        let any = dice.size(0, need - 1);
        let length = *dice.pick(&[need - 1, need - 1, any, 0, need, need + 1]);
        delivery.grid = filled_grid(dice, length);
        if dice.one_in(3) {
            delivery.block = damaged_profile_block(dice, &kept.header, &sent);
        }
        visit(plain(delivery));
    }
}

/// Every count from none to one short of enough, sound as far as they go, or all zeros.
fn too_few_numbers(dice: &mut Dice, visit: &mut Visit) {
    for turn in 0..4_000 {
        let mut kept = match dice.size(0, 3) {
            0 => Kept::fresh(),
            _ => sessions::any(dice),
        };
        let (mut delivery, _) = awaited(dice, &mut kept);
        delivery.numbers.truncate(turn % NUMBERS);
        if dice.one_in(5) {
            delivery.block.pop();
        }
        visit(plain(delivery));
    }
}

/// Chance for every number, or for every number of a part of the session.
fn any_numbers(dice: &mut Dice, visit: &mut Visit) {
    for _ in 0..4_000 {
        let mut kept = sessions::any(dice);
        let (mut delivery, _) = awaited(dice, &mut kept);
        let &(first, last) = dice.pick(&[(0, 37), (0, 19), (20, 27), (28, 36), (20, 37)]);
        for number in &mut delivery.numbers[first..=last] {
            let (any, small) = (dice.roll() as i64, dice.between(0, 3000));
            *number = *dice.pick(&[any, small, small, 0, 1]);
        }
        fit(dice, &mut delivery);
        visit(plain(delivery));
    }
}

/// 2048 columns of 2048 rows, all of its grid lent: block 0, the last profile's first
/// block, its last one, and one for which a cell is wanting; and the last block of the
/// highest and of the deepest ground there can be.
fn the_largest_sheet(dice: &mut Dice, visit: &mut Visit) {
    let head = head::head(dice, MOST, MOST);
    let mut fresh = Kept::fresh();
    let (mut delivery, _) = awaited(dice, &mut fresh);
    delivery.block = head.block(dice);
    delivery.grid = vec![7; head.cells()];
    visit(plain(delivery));
    for (inside, missing) in [(false, 0), (true, 0), (true, 1)] {
        let mut delivery = to_the_last_profile(dice, &head.numbers, inside);
        delivery.grid.truncate(head.cells() - missing);
        visit(plain(delivery));
    }
    for (post, datum) in OUTERMOST {
        visit(plain(sums::furthest(dice, &head.numbers, post, datum)));
    }
}

/// A block that is taken, before or inside the last profile.
fn to_the_last_profile(dice: &mut Dice, header: &Header, inside: bool) -> Delivery {
    loop {
        let mut kept = sessions::before_the_last_profile(dice, header);
        if inside {
            sessions::reach_the_last_block(&mut kept);
        }
        let (mut delivery, _) = awaited(dice, &mut kept);
        delivery.grid = vec![VOID_CELL; header.cells()];
        if delivery.leaves().told.result == DONE {
            return delivery;
        }
    }
}
