//! Scripts of deliveries for `replay`, family by family. Each script is made from the
//! seed and its own number alone, so any one can be made again by itself.

pub mod accident;
mod closing;
mod damaged;
mod grids;
mod heights;
mod line;
mod malformed;
mod poor_line;

use crate::dice::Dice;
use crate::replay::Script;
use crate::turns::{self, Made};
use Maker::{BreaksOff, Whole};

/// How a family's scripts are made.
pub enum Maker {
    Whole(fn(&mut Dice) -> Script),
    /// Half of them break off after any delivery. A grid is shown only at a script's end,
    /// so this is how a refusal that changed something is found out.
    BreaksOff(fn(&mut Dice) -> Script),
}

impl Maker {
    pub fn script(&self, dice: &mut Dice) -> Script {
        match self {
            Whole(make) => make(dice),
            BreaksOff(make) => at_times_broken_off(make(dice), dice),
        }
    }
}

fn at_times_broken_off(mut script: Script, dice: &mut Dice) -> Script {
    if dice.one_in(2) {
        let deliveries = dice.size(1, script.deliveries());
        script.break_off_after(deliveries);
    }
    script
}

type Family = turns::Family<Maker>;

/// Each with how many of every hundred scripts are of it.
pub const FAMILIES: &[Family] = &[
    Family::of("whole sheets", 9, Whole(line::whole_sheet)),
    Family::of(
        "whole sheets, long profiles",
        5,
        Whole(line::whole_sheet_of_long_profiles),
    ),
    Family::of("poor line", 15, BreaksOff(poor_line::small_sheet)),
    Family::of(
        "poor line, long profiles",
        8,
        BreaksOff(poor_line::long_profiles),
    ),
    Family::of("heights far from zero", 4, BreaksOff(heights::far)),
    Family::of("two sheets mixed up", 3, BreaksOff(poor_line::two_sheets)),
    Family::of(
        accident::THE_CUSTOMERS_ACCIDENT,
        4,
        Whole(accident::the_customers_accident),
    ),
    Family::of("record A damaged, corrected", 8, BreaksOff(damaged::header)),
    Family::of(
        "profiles damaged, corrected",
        14,
        BreaksOff(damaged::profiles),
    ),
    Family::of(
        "record C damaged, corrected",
        6,
        BreaksOff(damaged::statistics),
    ),
    Family::of("closing rules", 8, BreaksOff(closing::wrong_extremes)),
    Family::of("grids lent short", 5, BreaksOff(grids::lent_short)),
    Family::of(
        "numbers and lengths",
        4,
        BreaksOff(grids::numbers_and_lengths),
    ),
    Family::of("no deliveries", 1, Whole(grids::no_deliveries)),
    Family::of("bad scripts", 6, Whole(malformed::bad_script)),
];

/// Script `number` of the run with this seed.
pub fn make(seed: u64, number: usize) -> Made {
    turns::made(FAMILIES, seed, number, |make, dice| make.script(dice).bytes)
}
