//! The line that blocks are sent over, and sheets sent over it without any mishap.

use crate::dice::Dice;
use crate::replay::{Script, MOST_CELLS};
use crate::sheets::shapes::{long_plan, small_plan, wide_plan};
use crate::sheets::{Plan, Sent};

/// A sheet's blocks and the script that delivers them.
pub struct Line {
    pub script: Script,
    /// Cells of the script's grid, and those the sheet needs.
    pub cells: u32,
    pub need: u32,
    pub blocks: Vec<Sent>,
}

impl Line {
    /// A grid that the sheet fits: just so, with a few cells to spare, or the most there are.
    pub fn open(dice: &mut Dice, plan: &Plan) -> Line {
        let need = plan.cells() as u32;
        let spare = dice.size(1, 40) as u32;
        let cells = *dice.pick(&[need, need, need + spare, MOST_CELLS]);
        Line::with_grid(dice, plan, cells.min(MOST_CELLS))
    }

    pub fn with_grid(dice: &mut Dice, plan: &Plan, cells: u32) -> Line {
        Line {
            script: Script::new(cells),
            cells,
            need: plan.cells() as u32,
            blocks: plan.blocks(dice),
        }
    }

    /// Delivers any bytes under any number, the whole grid lent.
    pub fn send(&mut self, number: usize, bytes: &[u8]) {
        self.script.deliver(self.cells, number as u32, bytes);
    }

    pub fn send_lent(&mut self, lent: u32, number: u32, bytes: &[u8]) {
        self.script.deliver(lent, number, bytes);
    }

    /// Block `number` under its own number.
    pub fn send_block(&mut self, number: usize) {
        let bytes = self.blocks[number].bytes.clone();
        self.send(number, &bytes);
    }

    pub fn send_blocks(&mut self, numbers: std::ops::Range<usize>) {
        for number in numbers {
            self.send_block(number);
        }
    }
}

/// Every block once, and at times one more than the sheet has.
fn all_in_order(dice: &mut Dice, plan: &Plan) -> Script {
    let mut line = Line::open(dice, plan);
    let count = line.blocks.len();
    line.send_blocks(0..count);
    if dice.one_in(3) {
        let bytes = line.blocks[count - 1].bytes.clone();
        line.send(count, &bytes);
    }
    line.script
}

pub fn whole_sheet(dice: &mut Dice) -> Script {
    let plan = if dice.one_in(6) {
        wide_plan(dice)
    } else {
        small_plan(dice)
    };
    all_in_order(dice, &plan)
}

pub fn whole_sheet_of_long_profiles(dice: &mut Dice) -> Script {
    let plan = long_plan(dice);
    all_in_order(dice, &plan)
}
