//! One record at a time, damaged in many ways and then corrected.

use super::line::Line;
use crate::dice::Dice;
use crate::load::{deliver, Answer, Session};
use crate::replay::Script;
use crate::sheets::aimed::{damaged_profile_block, replace};
use crate::sheets::damage::{damaged, fields_of};
use crate::sheets::shapes::{long_or_small_plan, small_plan};
use crate::sheets::{put, Plan};

/// A line whose sender knows what the other end will say. Of the damaged blocks that
/// would be taken it sends only a few, or most of what follows them would be held.
struct KnowingLine {
    line: Line,
    session: Session,
    grid: Vec<i32>,
}

impl KnowingLine {
    fn open(dice: &mut Dice, plan: &Plan) -> KnowingLine {
        KnowingLine {
            line: Line::open(dice, plan),
            session: Session::fresh(),
            grid: vec![0; plan.cells()],
        }
    }

    fn send_damaged(&mut self, dice: &mut Dice, number: usize, block: &[u8]) {
        let mut session = self.session.clone();
        let answer = deliver(&mut session, number as u32, block, &mut self.grid);
        if answer != Answer::Taken || dice.one_in(20) {
            self.session = session;
            self.line.send(number, block);
        }
    }

    fn send_right(&mut self, number: usize) {
        let bytes = &self.line.blocks[number].bytes;
        deliver(&mut self.session, number as u32, bytes, &mut self.grid);
        self.line.send_block(number);
    }
}

/// Many damaged blocks 0, then the right one and the sheet.
pub fn header(dice: &mut Dice) -> Script {
    let plan = small_plan(dice);
    let mut knowing = KnowingLine::open(dice, &plan);
    for _ in 0..25 {
        let mut block = damaged(dice, &knowing.line.blocks[0]);
        if dice.one_in(10) {
            let above = plan.head.columns + dice.between(1, 3);
            put(&mut block, 859, format!("{above:6}").as_bytes());
        }
        knowing.send_damaged(dice, 0, &block);
    }
    for number in 0..knowing.line.blocks.len() {
        knowing.send_right(number);
    }
    knowing.line.script
}

/// Before each right block of a profile, that block with some of its fields or posts
/// replaced, moved or shifted.
pub fn profiles(dice: &mut Dice) -> Script {
    let plan = long_or_small_plan(dice, 3);
    let mut knowing = KnowingLine::open(dice, &plan);
    knowing.send_right(0);
    for number in 1..knowing.line.blocks.len() {
        for _ in 0..dice.size(0, 8) {
            let sent = &knowing.line.blocks[number];
            let block = damaged_profile_block(dice, &plan.head.numbers, sent);
            knowing.send_damaged(dice, number, &block);
        }
        knowing.send_right(number);
    }
    knowing.line.script
}

/// A sheet up to its record C, damaged ones, the right one, and one too many. Sheets
/// without a record C get the same blocks and must refuse them as complete.
pub fn statistics(dice: &mut Dice) -> Script {
    let mut plan = small_plan(dice);
    let promised = !dice.one_in(6);
    plan.head.numbers.accuracy = 1;
    let mut knowing = KnowingLine::open(dice, &plan);
    if !promised {
        put(&mut knowing.line.blocks[0].bytes, 811, b"     0");
    }
    let last = knowing.line.blocks.len() - 1;
    for number in 0..last {
        knowing.send_right(number);
    }
    for _ in 0..25 {
        let block = damaged_statistics(dice, &knowing.line, last);
        knowing.send_damaged(dice, last, &block);
    }
    knowing.send_right(last);
    let again = knowing.line.blocks[last].bytes.clone();
    knowing.line.send(last + 1, &again);
    knowing.line.script
}

fn damaged_statistics(dice: &mut Dice, line: &Line, last: usize) -> Vec<u8> {
    let sent = &line.blocks[last];
    match dice.size(0, 5) {
        0 => damaged(dice, sent),
        1 => line.blocks[dice.size(0, last - 1)].bytes.clone(),
        _ => {
            let mut block = sent.bytes.clone();
            replace(dice, fields_of(sent.record), &mut block);
            if dice.one_in(3) {
                replace(dice, fields_of(sent.record), &mut block);
            }
            block
        }
    }
}
