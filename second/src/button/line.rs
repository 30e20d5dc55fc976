//! What a poor line brings in one press, and what the button must say to it.

use super::Sheet;
use crate::block::{Record, BLOCK_LENGTH};
use crate::dice::Dice;
use crate::family::CANADIAN;
use crate::kind::{SHEET_COMPLETE, TOO_EARLY, WRONG_LENGTH};
use crate::meaning::{self, Block, Refusal};
use crate::sheets::canadian::damaged_header;
use crate::sheets::damage::{damaged, mistype_a_spot};
use crate::spots;

pub struct Line<'a> {
    sheet: &'a Sheet,
    pub bytes: Vec<u8>,
    /// The refusals, a line each.
    pub refusals: String,
    /// Blocks taken once all of it has been delivered.
    pub taken: usize,
    pub shown: Vec<String>,
}

/// How often in a hundred blocks something goes wrong.
const MISHAPS: i64 = 5;

/// One press that finds `taken` blocks in the state. It begins anywhere up to the block that is
/// due, for the sender may not know it, and breaks off anywhere.
pub fn poor<'a>(dice: &mut Dice, sheet: &'a Sheet, taken: usize) -> Line<'a> {
    let count = sheet.reach;
    let mut line = Line::open(sheet, taken);
    let any = dice.size(0, taken);
    let mut next = *dice.pick(&[taken, taken.saturating_sub(3), any]);
    let end = if dice.one_in(2) {
        count
    } else {
        dice.size(next, count)
    };
    while next < end {
        if next == line.taken {
            mistype_rare_ones(dice, &mut line);
        }
        if dice.between(1, 100) <= MISHAPS {
            next = mishap(dice, &mut line, next);
        } else {
            line.send_block(next);
            next += 1;
        }
    }
    ending(dice, &mut line);
    line
}

/// A sheet has hundreds of blocks of profiles, but one record A and at most one record C: where such
/// a one is due, it comes some times with a number mistyped first.
fn mistype_rare_ones(dice: &mut Dice, line: &mut Line) {
    let due = &line.sheet.sent[line.taken];
    let times = match due.record {
        Record::Header => 6,
        Record::Statistics => 2,
        Record::ProfileStart | Record::ProfileRest => 0,
    };
    for _ in 0..times {
        let mut bytes = due.bytes.clone();
        mistype_a_spot(dice, line.sheet.family, due.record, &mut bytes);
        line.send(line.taken as u32, &bytes);
        line.note("damaged");
    }
}

/// All that is missing, as it should be.
pub fn good(sheet: &Sheet, taken: usize) -> Line<'_> {
    let mut line = Line::open(sheet, taken);
    for number in taken..sheet.reach {
        line.send_block(number);
    }
    line
}

/// One thing that goes wrong when `next` is to be sent; the block to go on with.
fn mishap(dice: &mut Dice, line: &mut Line, next: usize) -> usize {
    let count = line.sheet.text.len();
    match dice.size(0, 4) {
        0 => {
            // dropped, and missed only some blocks later
            let end = (next + 1 + dice.size(0, 4)).min(line.sheet.reach);
            for number in next + 1..end {
                line.send_block(number);
            }
            line.note("dropped");
            next
        }
        1 => {
            // a whole stretch once more, as at the accident
            for number in next.saturating_sub(dice.size(1, 8))..next {
                line.send_block(number);
            }
            line.note("repeated");
            next
        }
        2 => {
            let far = *dice.pick(&[count as u32, 26_626, u32::MAX]);
            line.send(far, &line.sheet.text[next].clone());
            line.note("wild number");
            next
        }
        _ => {
            if let Some(bytes) = refused_damage(dice, line) {
                line.send(line.taken as u32, &bytes);
                line.note("damaged");
            }
            next
        }
    }
}

/// The block that is due, damaged so that it breaks a rule: what breaks none is another sheet.
fn refused_damage(dice: &mut Dice, line: &Line) -> Option<Vec<u8>> {
    let due = line.sheet.sent.get(line.taken)?;
    let bytes = match (line.sheet.family, due.record) {
        (CANADIAN, Record::Header) => damaged_header(dice, &due.bytes),
        _ => damaged(dice, due),
    };
    let whole = bytes.len() == BLOCK_LENGTH;
    (whole && line.refusal_of(&bytes).is_some()).then_some(bytes)
}

/// The last frame whole or cut, in its block or in its number; or more than the sheet has.
fn ending(dice: &mut Dice, line: &mut Line) {
    let count = line.sheet.text.len();
    let number = line.taken.min(count - 1);
    let block = line.sheet.text[number].clone();
    match dice.size(0, 4) {
        0 => {
            let any = dice.size(1, BLOCK_LENGTH - 1);
            let length = *dice.pick(&[0, 1, any, BLOCK_LENGTH - 1]);
            line.send(number as u32, &block[..length]);
            line.note("cut in its block");
        }
        1 => {
            let length = dice.size(1, 3);
            line.bytes.extend(&(number as u32).to_be_bytes()[..length]);
            line.note("cut in its number");
        }
        2 if line.complete() => {
            line.send(count as u32, &block);
            line.note("one too many");
        }
        _ => {}
    }
}

impl<'a> Line<'a> {
    pub fn open(sheet: &'a Sheet, taken: usize) -> Line<'a> {
        Line {
            sheet,
            bytes: Vec::new(),
            refusals: String::new(),
            taken,
            shown: Vec::new(),
        }
    }

    fn note(&mut self, what: &str) {
        self.shown.push(what.to_string());
    }

    pub fn complete(&self) -> bool {
        self.sheet.whole() && self.taken == self.sheet.text.len()
    }

    /// All of standard output, if the press comes to its end.
    pub fn output(&self) -> String {
        let last = match self.taken == self.sheet.reach {
            true => self.sheet.lines.clone(),
            false => format!("unfinished {}\n", self.taken),
        };
        self.refusals.clone() + &last
    }

    fn send_block(&mut self, number: usize) {
        let bytes = self.sheet.text[number].clone();
        self.send(number as u32, &bytes);
    }

    /// A frame, and document 01's answer to it, in its order.
    pub fn send(&mut self, number: u32, bytes: &[u8]) {
        self.bytes.extend(number.to_be_bytes());
        self.bytes.extend(bytes);
        let due = self.taken as u32;
        if bytes.len() != BLOCK_LENGTH {
            self.refuse(WRONG_LENGTH, number);
        } else if number > due {
            self.refuse(TOO_EARLY, number);
        } else if number == due && self.complete() {
            self.refuse(SHEET_COMPLETE, number);
        } else if number == due && bytes == self.sheet.text[self.taken] {
            self.taken += 1;
        } else if number == due {
            let refusal = self.refusal_of(bytes).expect("only such damage is sent");
            self.refusals += &refusal.line();
            self.shown.push(format!("refused {}", refusal.kind));
            self.shown.extend(self.spot_of(refusal));
        }
    }

    /// Where in its field a fault of form stands in the block that is due.
    fn spot_of(&self, refusal: Refusal) -> Option<String> {
        let due = &self.sheet.sent[self.taken];
        let fault = (refusal.kind, refusal.byte);
        spots::shown(self.sheet.family, due.record, fault)
    }

    fn refuse(&mut self, kind: u32, number: u32) {
        let refusal = Refusal {
            kind,
            block: number,
            byte: 0,
        };
        self.refusals += &refusal.line();
        self.shown.push(format!("refused {kind}"));
    }

    /// What is wrong with the blocks taken and this one, read as one text.
    fn refusal_of(&self, bytes: &[u8]) -> Option<Refusal> {
        let mut text: Vec<Block> = self.sheet.text[..self.taken].to_vec();
        text.push(bytes.to_vec());
        meaning::read_of(self.sheet.family, &text).err()
    }
}
