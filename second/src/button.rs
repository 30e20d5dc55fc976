//! The Load button pressed over a poor line: the lines that are sent, the presses, and the
//! state that must be found afterwards.

pub mod line;
pub mod press;
pub mod state;

use crate::dice::Dice;
use crate::family::{CANADIAN, USGS};
use crate::lister;
use crate::meaning::{self, Block};
use crate::sheets::{canadian, plan, plan_with_length, Plan, Sent};

/// A sheet as it was meant to arrive, and what a lister says of it.
pub struct Sheet {
    pub family: i64,
    pub sent: Vec<Sent>,
    pub text: Vec<Block>,
    /// How many of these blocks the line brings: all, or so many that some are left.
    pub reach: usize,
    pub lines: String,
}

pub const FEWEST_BLOCKS: usize = 200;
const MOST_BLOCKS: usize = 450;

type Maker = fn(&mut Dice) -> Plan;

/// Several hundred blocks come of long profiles or of many short ones.
const USGS_SHEETS: [(&str, Maker); 3] = [
    ("long profiles", long_profiles),
    ("profiles of a few blocks", middling_profiles),
    ("many columns of few posts", many_columns),
];
const CANADIAN_SHEETS: &str = "Canadian, broken off";
/// One of so many sheets is Canadian: its state has 1,442,401 cells, written anew time and again.
const EVERY: usize = 35;

pub fn families() -> Vec<&'static str> {
    let names = USGS_SHEETS.iter().map(|&(name, _)| name);
    names.chain([CANADIAN_SHEETS]).collect()
}

fn long_profiles(dice: &mut Dice) -> Plan {
    let (columns, rows) = (dice.between(20, 40), dice.between(1_000, 2_048));
    plan(dice, columns, rows)
}

fn middling_profiles(dice: &mut Dice) -> Plan {
    let length = *dice.pick(&[147, 316, 317, 486]);
    let columns = dice.between(80, 150);
    let above = dice.between(0, 3);
    plan_with_length(dice, columns, length + above, length)
}

fn many_columns(dice: &mut Dice) -> Plan {
    let (columns, rows) = (dice.between(210, 440), dice.between(1, 7));
    plan(dice, columns, rows)
}

/// Sheet `number` of the run, and the name of its family of inputs.
pub fn sheet(seed: u64, number: usize) -> (&'static str, Sheet) {
    let dice = &mut Dice::numbered(seed, number);
    if number % EVERY == EVERY - 1 {
        return (CANADIAN_SHEETS, Sheet::broken_off(dice));
    }
    let (family, make) = USGS_SHEETS[number % USGS_SHEETS.len()];
    loop {
        let sent = make(dice).blocks(dice);
        if (FEWEST_BLOCKS..=MOST_BLOCKS).contains(&sent.len()) {
            return (family, Sheet::of(sent));
        }
    }
}

impl Sheet {
    pub fn of(sent: Vec<Sent>) -> Sheet {
        let text: Vec<Block> = sent.iter().map(|one| one.bytes.clone()).collect();
        let read = meaning::read(&text).expect("a sheet that was made whole");
        Sheet {
            family: USGS,
            reach: text.len(),
            sent,
            text,
            lines: lister::Outcome::Listed(read).output(),
        }
    }

    /// The first profiles of a Canadian sheet, of which the line brings all blocks but the last.
    pub fn broken_off(dice: &mut Dice) -> Sheet {
        let profiles = dice.between(10, 16);
        let sent = canadian::plan(dice, profiles).blocks(dice);
        let text: Vec<Block> = sent.iter().map(|one| one.bytes.clone()).collect();
        let reach = text.len() - 1;
        Sheet {
            family: CANADIAN,
            sent,
            text,
            reach,
            lines: format!("unfinished {reach}\n"),
        }
    }

    /// Whether its line brings it to its end.
    pub fn whole(&self) -> bool {
        self.reach == self.text.len()
    }
}
