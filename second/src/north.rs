//! Canadian sheets sent to the desk over a poor line. A sheet has 1,442,401 cells, so the C side
//! keeps one grid for all of them and hands back, with each delivery, the cells around its block;
//! the whole grid is looked at once a sheet is through. What was taken must then be, number by
//! number and cell by cell, what the joined text of the blocks means.

use crate::block::{Record, BLOCK_LENGTH};
use crate::comparing::Counts;
use crate::crafted::{blocks, families};
use crate::desk::{self, Call, Placed, Window};
use crate::dice::Dice;
use crate::family::{CANADIAN, CANADIAN_SIDE};
use crate::kept::{self, name_of, place, Kept, DONE, HELD, NUMBERS};
use crate::meaning::{self, sum_of_cells, Block};
use crate::pointless;
use crate::runs;
use crate::runs::line::{marked, Brought, Line};
use crate::runs::shown::{Look, Seen};
use crate::sheets::aimed::{damaged_profile_block, put_without_point, POINTLESS_TURNS};
use crate::sheets::canadian::{self, CELLS};
use crate::sheets::damage::STRANGERS;
use crate::sheets::{put, Plan, Sent};
use crate::spots;

/// Cells past the sheet, which no delivery may touch, and what they hold.
const SPARE: usize = 5;
const HELD_AT_FIRST: i32 = 7;
/// Cells shown on either side of those that a block fills.
const AROUND: usize = 3;

pub const CRAFTED: usize = 3_000;
const WITHOUT_POINT: usize = 8 * POINTLESS_TURNS;
/// Sheets that break off, and sheets that are sent to their end.
pub const BROKEN_OFF: usize = 220;
pub const WHOLE: usize = 2;
/// Those that come by runs, and how many calls one of them has that breaks off.
pub const BROKEN_OFF_BY_RUNS: usize = 300;
const CALLS: usize = 8;

/// The desk's end of the line, asked through `ask`.
pub struct North<'a> {
    ask: &'a mut dyn FnMut(Call),
    /// What the grid that the C side keeps must be.
    grid: Vec<i32>,
    numbers: Vec<i64>,
    /// The blocks that the session has taken.
    text: Vec<Block>,
    /// What came of single blocks, by the record that was awaited, and of runs.
    pub answers: Counts,
    pub runs: Seen,
    /// How sheets ended.
    pub ends: Counts,
    /// Reals without a point in single blocks, and what came of them.
    pub pointless: Counts,
    /// Where in their fields faults of form stood, in single blocks and in runs.
    pub spots: Counts,
    pub spots_of_runs: Counts,
}

impl<'a> North<'a> {
    pub fn open(ask: &'a mut dyn FnMut(Call)) -> North<'a> {
        ask(desk::keep_grid(CELLS + SPARE, HELD_AT_FIRST));
        North {
            ask,
            grid: vec![HELD_AT_FIRST; CELLS + SPARE],
            numbers: fresh(),
            text: Vec::new(),
            answers: Counts::default(),
            runs: Seen::default(),
            ends: Counts::default(),
            pointless: Counts::default(),
            spots: Counts::default(),
            spots_of_runs: Counts::default(),
        }
    }

    /// Sessions that no line brought, with the block that they await or a damaged one.
    pub fn send_to_crafted(&mut self, dice: &mut Dice) {
        for turn in 0..CRAFTED {
            let mut kept = families::canadian(dice);
            if kept.taken == 0 && turn % 4 != 0 {
                continue;
            }
            let sent = blocks::awaited(dice, &mut kept);
            let block = match dice.one_in(3) {
                true => damaged_profile_block(dice, &kept.header, &sent),
                false => sent.bytes,
            };
            self.numbers = kept.numbers().to_vec();
            let lent = self.any_lent(dice);
            self.send(dice, kept.taken as u32, &block, lent);
            if turn % 500 == 0 {
                self.look_at_all();
            }
        }
        self.look_at_all();
    }

    /// First blocks of profiles, each of their reals without a point and at fault in each way.
    pub fn send_without_points(&mut self, dice: &mut Dice) {
        for turn in 0..WITHOUT_POINT {
            let mut kept = families::canadian(dice);
            while kept.awaits() != Some(Record::ProfileStart) {
                kept = families::canadian(dice);
            }
            let mut block = blocks::awaited(dice, &mut kept).bytes;
            put_without_point(turn, &mut block);
            self.numbers = kept.numbers().to_vec();
            self.send(dice, kept.taken as u32, &block, CELLS);
        }
        self.look_at_all();
    }

    /// The first blocks of a sheet, each of them before it is sent rightly with a stranger in each
    /// sort of number, at its first byte, at its last and between; singly, then at the end of runs.
    pub fn send_mistyped(&mut self, dice: &mut Dice) {
        for by_runs in [false, true] {
            let blocks = canadian::plan(dice, 1).blocks(dice);
            self.begin();
            for number in 0..blocks.len() {
                self.send_mistyped_block(dice, &blocks, number, by_runs);
                self.send_good(dice, &blocks, number);
            }
            self.end(true);
        }
    }

    fn send_mistyped_block(
        &mut self,
        dice: &mut Dice,
        blocks: &[Sent],
        number: usize,
        by_runs: bool,
    ) {
        let due = &blocks[number];
        for byte in spots::telling_bytes(CANADIAN, due.record) {
            let mut block = due.bytes.clone();
            put(&mut block, byte, &[*dice.pick(STRANGERS)]);
            if by_runs {
                // What was taken comes first once more.
                let first = number - number.min(dice.size(0, 2));
                let held = blocks[first..number].iter().flat_map(|sent| &sent.bytes);
                let run = held.copied().chain(block).collect();
                self.send_a_run(dice, (first as u32, run), CELLS);
            } else {
                self.send(dice, number as u32, &block, CELLS);
            }
        }
    }

    /// So many blocks of a sheet, with mishaps; some never get a good block 0.
    pub fn send_broken_off(&mut self, dice: &mut Dice, turn: usize) {
        let profiles = *dice.pick(&[1, 1, 2, 3]);
        let plan = canadian::plan(dice, profiles);
        let blocks = plan.blocks(dice);
        self.begin();
        let end = match turn % 3 {
            0 => 0,
            _ => dice.size(1, blocks.len() - 1),
        };
        for number in 0..end {
            self.mishaps(dice, &plan, &blocks, number, 3);
            self.send_good(dice, &blocks, number);
        }
        for _ in 0..if end == 0 { 20 } else { 4 } {
            self.mishap(dice, &plan, &blocks, end);
        }
        self.end(turn % 3 == 1);
    }

    pub fn send_whole(&mut self, dice: &mut Dice) {
        let plan = canadian::plan(dice, CANADIAN_SIDE);
        let blocks = plan.blocks(dice);
        self.begin();
        for number in 0..blocks.len() {
            self.mishaps(dice, &plan, &blocks, number, 40);
            self.send_good(dice, &blocks, number);
        }
        // A block too many.
        self.send(dice, blocks.len() as u32, &blocks[1].bytes, CELLS);
        self.end(true);
    }

    /// The first blocks of a sheet by runs, single blocks between them.
    pub fn send_broken_off_by_runs(&mut self, dice: &mut Dice, turn: usize) {
        let plan = canadian::plan(dice, 3);
        let blocks = plan.blocks(dice);
        let damaged = |dice: &mut Dice, due: &Sent| -> Block {
            damaged_profile_block(dice, &plan.head.numbers, due)
        };
        let line = Line {
            blocks: &blocks,
            spoilt: &damaged,
        };
        self.begin();
        for _ in 0..CALLS {
            self.send_some(dice, &line);
        }
        self.end(turn % 3 == 1);
    }

    pub fn send_whole_by_runs(&mut self, dice: &mut Dice) {
        let blocks = canadian::plan(dice, CANADIAN_SIDE).blocks(dice);
        let line = Line {
            blocks: &blocks,
            spoilt: &marked,
        };
        self.begin();
        while self.text.len() < blocks.len() {
            self.send_some(dice, &line);
        }
        // And past its end.
        for _ in 0..CALLS {
            self.send_some(dice, &line);
        }
        self.end(true);
    }

    /// All blocks of a sheet in one run.
    pub fn send_whole_at_once(&mut self, dice: &mut Dice) {
        let blocks = canadian::plan(dice, CANADIAN_SIDE).blocks(dice);
        self.begin();
        let all = blocks.iter().flat_map(|sent| &sent.bytes);
        self.send_a_run(dice, (0, all.copied().collect()), CELLS);
        self.end(true);
    }

    fn begin(&mut self) {
        self.numbers = fresh();
        self.text.clear();
    }

    /// What the blocks taken mean, read as one text, against the session and the grid; and, if
    /// asked for, the whole grid of the C side.
    fn end(&mut self, all: bool) {
        let complete = match self.text.is_empty() {
            true => {
                assert_eq!(self.numbers, fresh());
                false
            }
            false => self.demand_meaning(),
        };
        self.ends.see(match (self.text.len(), complete) {
            (0, _) => "block 0 refused",
            (1, _) => "unfinished, block 0 alone",
            (_, true) => "complete",
            _ => "unfinished in its profiles",
        });
        (self.ask)(desk::session(&self.numbers, 256));
        if all {
            self.look_at_all();
        }
    }

    /// Whether the text is a whole sheet.
    fn demand_meaning(&self) -> bool {
        let sheet = meaning::read_of(CANADIAN, &self.text).expect("all of it was taken");
        assert_eq!(Kept::after(&sheet).numbers()[..], self.numbers);
        let (own, spare) = self.grid.split_at(CELLS);
        assert!(
            sheet.cells() == own,
            "the cells are not what the text means"
        );
        assert_eq!(spare, [HELD_AT_FIRST; SPARE]);
        assert_eq!(sheet.figures().sum, sum_of_cells(own));
        sheet.complete()
    }

    fn look_at_all(&mut self) {
        (self.ask)(desk::look_at_grid(0..self.grid.len(), &self.grid));
    }

    /// All cells and more, just enough, or one too few.
    fn any_lent(&self, dice: &mut Dice) -> usize {
        let enough = *dice.pick(&[CELLS, CELLS + SPARE]);
        match dice.one_in(16) {
            true => *dice.pick(&[0, CELLS - 1]),
            false => enough,
        }
    }

    fn send_good(&mut self, dice: &mut Dice, blocks: &[Sent], number: usize) {
        self.send(dice, number as u32, &blocks[number].bytes, CELLS);
    }

    fn mishaps(&mut self, dice: &mut Dice, plan: &Plan, blocks: &[Sent], next: usize, rare: i64) {
        while dice.one_in(rare) {
            self.mishap(dice, plan, blocks, next);
        }
    }

    /// A block repeated, early, damaged, cut, of another place, or with too few cells lent.
    fn mishap(&mut self, dice: &mut Dice, plan: &Plan, blocks: &[Sent], next: usize) {
        let due = &blocks[next.min(blocks.len() - 1)];
        let other = dice.pick(blocks).bytes.clone();
        let (number, block, lent) = match dice.size(0, 9) {
            0 => (dice.size(0, next), other, CELLS),
            1 if next > 0 => (next - 1, due.bytes.clone(), CELLS),
            2 => (next + dice.size(1, 3), other, CELLS),
            3 => (next, due.bytes[..dice.size(0, 1023)].to_vec(), CELLS),
            4 => (next, due.bytes.clone(), *dice.pick(&[0, 146, CELLS - 1])),
            5 => (next, with_a_mark_behind(dice, due), CELLS),
            _ => {
                let damaged = damaged_profile_block(dice, &plan.head.numbers, due);
                (next, damaged, CELLS)
            }
        };
        let whole = plan.runs.len() as i64 == CANADIAN_SIDE;
        if !whole || lent < CELLS || !self.would_change_the_sheet(number, &block, due) {
            self.send(dice, number as u32, &block, lent);
        }
    }

    /// Damage that breaks no rule makes another sheet, which the other blocks may not end.
    fn would_change_the_sheet(&self, number: usize, block: &[u8], due: &Sent) -> bool {
        let (mut numbers, mut grid) = (self.numbers.clone(), self.grid.clone());
        let told = kept::deliver(&mut numbers, number as u32, block, &mut grid);
        told.result == DONE && block != due.bytes
    }

    fn send(&mut self, dice: &mut Dice, number: u32, block: &[u8], lent: usize) {
        let placed = self.placed(dice, number, block, lent);
        let awaited = Kept::of(&self.numbers).awaits();
        let (told, after) = placed.leaves(kept::deliver, &mut self.grid);
        self.answers.see(answer_name(awaited, told.result));
        for name in pointless::shown_by_delivery(&self.numbers, number, block, told) {
            self.pointless.see(name);
        }
        if let Some(name) = spots::shown_by_delivery(&after, told) {
            self.spots.see(name);
        }
        (self.ask)(placed.call(told, None, &after, &self.grid));
        if told.result == DONE {
            self.text.push(block.to_vec());
        }
        self.numbers = after;
    }

    /// A run, or the block due alone.
    fn send_some(&mut self, dice: &mut Dice, line: &Line) {
        let next = self.text.len();
        match dice.one_in(5) {
            true => self.send(dice, next as u32, &line.block(next).bytes, CELLS),
            false => {
                let (brought, lent) = (line.brings(dice, next), self.any_lent(dice));
                self.send_a_run(dice, brought, lent);
            }
        }
    }

    fn send_a_run(&mut self, dice: &mut Dice, (number, bytes): Brought, lent: usize) {
        let placed = self.placed(dice, number, &bytes, lent);
        let (ended, after) = placed.leaves(runs::deliver, &mut self.grid);
        self.runs.see(&Look::at_placed(&placed, ended, &after));
        if let Some(name) = spots::shown_by_delivery(&after, ended.told) {
            self.spots_of_runs.see(name);
        }
        (self.ask)(placed.call(ended.told, Some(ended.count), &after, &self.grid));
        // What was taken stands behind what was held.
        let taken = (after[place::TAKEN] - self.numbers[place::TAKEN]) as usize;
        let passed = bytes.chunks(BLOCK_LENGTH).take(ended.count as usize);
        let held = ended.count as usize - taken;
        self.text.extend(passed.skip(held).map(<[u8]>::to_vec));
        self.numbers = after;
    }

    fn placed(&self, dice: &mut Dice, number: u32, bytes: &[u8], lent: usize) -> Placed {
        Placed {
            numbers: self.numbers.clone(),
            number,
            block: bytes.to_vec(),
            lent,
            window: window(&self.numbers, bytes.len().div_ceil(BLOCK_LENGTH)),
            room: dice.size(0, 3),
        }
    }
}

fn fresh() -> Vec<i64> {
    Kept::opened(CANADIAN).numbers().to_vec()
}

/// The cells around those that so many next blocks fill; the end of the sheet where there is none.
fn window(numbers: &[i64], blocks: usize) -> Window {
    let all = CELLS + SPARE;
    let end = CELLS - AROUND..all;
    let Some(kept) = kept::sound(&numbers[..NUMBERS]) else {
        return end;
    };
    let has_cells = match kept.awaits() {
        Some(Record::Header) => blocks > 1,
        Some(record) => record != Record::Statistics,
        None => false,
    };
    if !has_cells {
        return end;
    }
    let read = if kept.has_open() { kept.open.read } else { 0 };
    let south = (kept.closed * CANADIAN_SIDE + read) as usize;
    south.saturating_sub(AROUND)..(south + 170 * blocks + AROUND).min(all)
}

/// Behind the posts of a first block lie four bytes.
fn with_a_mark_behind(dice: &mut Dice, due: &Sent) -> Vec<u8> {
    let mut block = due.bytes.clone();
    put(&mut block, dice.size(1021, 1024), &[*dice.pick(b"0X\t")]);
    block
}

fn answer_name(awaited: Option<Record>, result: u32) -> String {
    let what = match awaited {
        Some(Record::Header) => "block 0",
        Some(Record::ProfileStart) => "a profile's first block",
        Some(Record::ProfileRest) => "a further block",
        _ => "no block",
    };
    format!("{what} awaited, {}", name_of(result))
}

/// What a run must have met to count.
pub fn answers() -> Vec<String> {
    let mut names = Vec::new();
    for (record, results) in [
        (
            Some(Record::Header),
            &[DONE, 1, 3, 5, 6, 7, 8, 9, 10, 12, 15][..],
        ),
        (
            Some(Record::ProfileStart),
            &[DONE, HELD, 1, 3, 5, 6, 7, 8, 9, 10, 12],
        ),
        (
            Some(Record::ProfileRest),
            &[DONE, HELD, 1, 3, 5, 6, 7, 11, 12],
        ),
        (None, &[4]),
    ] {
        names.extend(results.iter().map(|&result| answer_name(record, result)));
    }
    names
}

/// No session here is unsound, and few numbers are too fine.
pub fn answers_of_runs() -> Vec<String> {
    let kinds = [1, 3, 4, 5, 6, 7, 9, 10, 11, 12, 15];
    let results = [DONE, HELD].into_iter().chain(kinds);
    results.map(name_of).collect()
}

/// Where faults of form must have stood.
pub fn spots_wanted() -> Vec<String> {
    let records = [Record::Header, Record::ProfileStart, Record::ProfileRest];
    spots::wanted(CANADIAN, &records)
}

pub const ENDS: [&str; 4] = [
    "block 0 refused",
    "unfinished, block 0 alone",
    "unfinished in its profiles",
    "complete",
];
