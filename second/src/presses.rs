//! Whole sheets sent to the desk over a poor line, block by block or by runs. After each call the
//! session's numbers and the grid must be what the blocks taken mean, read as one text, and
//! the sum of the text's filled posts that of the sheet's filled cells in the grid.

use crate::desk::{Delivery, Left};
use crate::dice::Dice;
use crate::kept::{Kept, Told, DONE, HELD, NUMBERS};
use crate::load::{deliver, Answer, Session};
use crate::runs::{self, line::Line};
use crate::sheets::aimed::damaged_profile_block;
use crate::sheets::shapes::{long_plan, small_plan, wide_plan};
use crate::sheets::{plan_with_length, Plan, Sent};

/// Shapes of sheets, and how many of each.
type Shapes = [(usize, fn(&mut Dice) -> Plan)];
const BLOCK_BY_BLOCK: &Shapes = &[(350, small_plan), (24, long_plan), (6, wide_plan)];
const BY_RUNS: &Shapes = &[
    (300, small_plan),
    (200, long_plan),
    (30, wide_plan),
    (25, tall_plan),
];

/// A sheet brought by runs is given up after so many calls.
const MOST_CALLS: usize = 24;

pub type Visit<'a> = dyn FnMut(Delivery, Left) + 'a;

pub fn all(dice: &mut Dice, visit: &mut Visit) {
    each_sheet(dice, BLOCK_BY_BLOCK, |dice, plan, mut press| {
        press.send_all(dice, plan, visit);
    });
}

/// Runs, and single blocks between them.
pub fn by_runs(dice: &mut Dice, visit: &mut Visit) {
    each_sheet(dice, BY_RUNS, |dice, plan, mut press| {
        press.send_by_runs(dice, plan, visit);
    });
}

fn each_sheet(dice: &mut Dice, shapes: &Shapes, mut send: impl FnMut(&mut Dice, &Plan, Press)) {
    for &(sheets, plan) in shapes {
        for _ in 0..sheets {
            let plan = plan(dice);
            let press = Press::new(dice, &plan);
            send(dice, &plan, press);
        }
    }
}

/// As many long profiles as the usual grid has room for.
fn tall_plan(dice: &mut Dice) -> Plan {
    plan_with_length(dice, 7, 2048, 2048)
}

/// The desk's end of a line: what it has taken, and the grid it lends.
struct Press {
    taken: Session,
    grid: Vec<i32>,
    /// Numbers past the session's own, which stay what they are.
    past: Vec<i64>,
}

impl Press {
    fn new(dice: &mut Dice, plan: &Plan) -> Press {
        let spare = dice.size(0, 3);
        Press {
            taken: Session::fresh(),
            grid: vec![7; plan.cells() + spare],
            past: vec![-9; dice.size(0, 2)],
        }
    }

    fn send_all(&mut self, dice: &mut Dice, plan: &Plan, visit: &mut Visit) {
        let blocks = plan.blocks(dice);
        for number in 0..blocks.len() {
            while dice.one_in(3) {
                self.mishap(dice, plan, &blocks, number, visit);
            }
            self.send(dice, number as u32, &blocks[number].bytes, visit);
        }
        self.mishap(dice, plan, &blocks, blocks.len(), visit);
    }

    /// A block repeated, early, damaged, cut, or of another place.
    fn mishap(
        &mut self,
        dice: &mut Dice,
        plan: &Plan,
        blocks: &[Sent],
        next: usize,
        visit: &mut Visit,
    ) {
        let last = blocks.len() - 1;
        let due = &blocks[next.min(last)];
        let other = dice.pick(blocks).bytes.clone();
        let (number, block) = match dice.size(0, 6) {
            0 => (dice.size(0, next), other),
            1 => (next.saturating_sub(1), due.bytes.clone()),
            2 => (next + dice.size(1, 3), other),
            3 => (next, due.bytes[..dice.size(0, 1023)].to_vec()),
            _ => (next, damaged_profile_block(dice, &plan.head.numbers, due)),
        };
        self.send(dice, number as u32, &block, visit);
    }

    /// Until the sheet is complete, and now and then once more.
    fn send_by_runs(&mut self, dice: &mut Dice, plan: &Plan, visit: &mut Visit) {
        let blocks = plan.blocks(dice);
        let spoilt = |dice: &mut Dice, due: &Sent| -> Vec<u8> {
            damaged_profile_block(dice, &plan.head.numbers, due)
        };
        let line = Line {
            blocks: &blocks,
            spoilt: &spoilt,
        };
        for _ in 0..MOST_CALLS {
            let next = self.taken.taken();
            match dice.size(0, 5) {
                0 => self.mishap(dice, plan, &blocks, next, visit),
                1 => self.send(dice, next as u32, &line.block(next).bytes, visit),
                _ => {
                    let (number, bytes) = line.brings(dice, next);
                    let lent = self.any_lent(dice);
                    let delivery = self.delivery(dice, number, &bytes, lent);
                    self.ask(delivery, true, visit);
                }
            }
            if self.taken.awaits().is_none() && dice.one_in(2) {
                return;
            }
        }
    }

    /// At times fewer cells than there are.
    fn any_lent(&self, dice: &mut Dice) -> usize {
        match dice.one_in(16) {
            true => dice.size(0, self.grid.len()),
            false => self.grid.len(),
        }
    }

    fn send(&mut self, dice: &mut Dice, number: u32, block: &[u8], visit: &mut Visit) {
        let delivery = self.delivery(dice, number, block, self.grid.len());
        self.ask(delivery, false, visit);
    }

    fn delivery(&self, dice: &mut Dice, number: u32, bytes: &[u8], lent: usize) -> Delivery {
        Delivery {
            numbers: self.numbers(),
            number,
            block: bytes.to_vec(),
            grid: self.grid[..lent].to_vec(),
            room: dice.size(0, 4),
        }
    }

    fn ask(&mut self, delivery: Delivery, by_run: bool, visit: &mut Visit) {
        let (told, count) = self.deliver(&delivery, by_run);
        let cells = self.taken.sum_in(&self.grid);
        assert_eq!(self.taken.figures().sum, cells, "after {}", delivery.number);
        let left = Left {
            told,
            count,
            numbers: self.numbers(),
            grid: self.grid[..delivery.grid.len()].to_vec(),
        };
        visit(delivery, left);
    }

    /// A run is single deliveries in order, each with the blocks taken so far read as one text.
    fn deliver(&mut self, delivery: &Delivery, by_run: bool) -> (Told, Option<u32>) {
        let lent = &mut self.grid[..delivery.grid.len()];
        let taken = &mut self.taken;
        let mut single = |number: u32, block: &[u8]| told(deliver(taken, number, block, lent));
        if !by_run {
            return (single(delivery.number, &delivery.block), None);
        }
        let ended = runs::run(delivery.number, &delivery.block, single);
        (ended.told, Some(ended.count))
    }

    fn numbers(&self) -> Vec<i64> {
        let sheet = self.taken.sheet();
        let own = sheet.map_or([0; NUMBERS], |sheet| Kept::after(&sheet).numbers());
        [&own[..], &self.past].concat()
    }
}

/// Taken and held come with zeros.
pub fn told(answer: Answer) -> Told {
    let plain = |result: u32| Told {
        result,
        block: 0,
        byte: 0,
    };
    match answer {
        Answer::Taken => plain(DONE),
        Answer::Held => plain(HELD),
        Answer::Refused(refusal) => Told {
            result: refusal.kind,
            block: refusal.block,
            byte: refusal.byte,
        },
    }
}
