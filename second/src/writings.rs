//! What the desk's writer is asked for: every set of faults at once, so that the order of
//! the kinds shows, and sheets of every shape.

use crate::block::{stretch, Record, BLOCK_LENGTH};
use crate::desk::{Call, Writing};
use crate::dice::Dice;
use crate::family::USGS;
use crate::kind::WRONG_LENGTH;
use crate::orders::heights::unfit_cell;
use crate::orders::{self, whole};
use crate::record_a;
use crate::sheets::damage::{damaged, mistype_a_spot};
use crate::sheets::Sent;
use crate::write;

/// Faults in the order in which a block's writer finds them; the first and the last are no
/// faults of a sheet, whose buffer is looked at after all else.
pub const FAULTS: [&str; 7] = [
    "lent length",
    "template length",
    "template",
    "grid",
    "cell",
    "number",
    "out length",
];
const LENT: usize = 0;
const TEMPLATE_LENGTH: usize = 1;
const TEMPLATE: usize = 2;
const GRID: usize = 3;
const CELL: usize = 4;
const NUMBER: usize = 5;
const OUT: usize = 6;

const OF_A_BLOCK: [usize; 6] = [LENT, TEMPLATE_LENGTH, TEMPLATE, GRID, CELL, NUMBER];
const OF_A_SHEET: [usize; 5] = [TEMPLATE_LENGTH, TEMPLATE, GRID, CELL, OUT];

/// A call for a block or for the whole sheet, what it answers, and the faults that were
/// made in it, in order.
pub struct Asked {
    pub whole: bool,
    pub call: Call,
    pub told: (u32, u32),
    pub faults: Vec<usize>,
    /// Block 0 came out, and its template has no point in the x spacing (02, request 4).
    pub gives_a_point: bool,
}

impl Asked {
    fn block(writing: &Writing, number: u32, lent: &[u8], faults: Vec<usize>) -> Asked {
        let (call, told) = writing.block(number, lent);
        Asked {
            whole: false,
            call,
            told,
            faults,
            gives_a_point: told.0 == 0 && number == 0 && lacks_a_point(writing),
        }
    }

    fn sheet(writing: &Writing, length: usize, faults: Vec<usize>) -> Asked {
        let (call, told) = writing.sheet(length);
        Asked {
            whole: true,
            call,
            told,
            faults,
            gives_a_point: told.0 == 0 && lacks_a_point(writing),
        }
    }

    /// "A before B": the first fault is the one answered, the others hide behind it.
    pub fn hidden(&self) -> Vec<String> {
        let Some((&first, others)) = self.faults.split_first() else {
            return Vec::new();
        };
        others.iter().map(|&other| pair(first, other)).collect()
    }
}

fn lacks_a_point(writing: &Writing) -> bool {
    !stretch(&writing.template, 817, 828).contains(&b'.')
}

fn pair(first: usize, other: usize) -> String {
    format!("{} before {}", FAULTS[first], FAULTS[other])
}

pub type Visit<'a> = dyn FnMut(Asked) + 'a;

/// Each fault before each that comes after it.
pub fn pairs_of_a_block() -> Vec<String> {
    pairs(&OF_A_BLOCK)
}

pub fn pairs_of_a_sheet() -> Vec<String> {
    pairs(&OF_A_SHEET)
}

fn pairs(faults: &[usize]) -> Vec<String> {
    let mut names = Vec::new();
    for (place, &first) in faults.iter().enumerate() {
        for &other in &faults[place + 1..] {
            names.push(pair(first, other));
        }
    }
    names
}

/// How often every set of faults is made, and an order of every family.
const TIMES_EVERY_SET: usize = 60;
const TIMES_EVERY_SHAPE: usize = 12;

/// What the answer is said to be: a kind, and for kind 1 its number.
pub fn name_of((kind, number): (u32, u32)) -> String {
    match kind {
        0 => "done".to_string(),
        WRONG_LENGTH => format!("refused 1 with {number}"),
        _ => format!("refused {kind}"),
    }
}

/// Blocks with no fault and with every set of faults, many times over.
pub fn blocks(dice: &mut Dice, visit: &mut Visit) {
    for turn in 0..64 * TIMES_EVERY_SET {
        let faults = set_of(&OF_A_BLOCK, turn);
        let (writing, count) = with_faults(dice, &faults);
        let any = dice.size(0, count - 1);
        let mut number = *dice.pick(&[0, 1.min(count - 1), any, count - 1]) as u32;
        if faults.contains(&NUMBER) {
            number = *dice.pick(&[count as u32, count as u32 + 1, 1 << 31, u32::MAX]);
        }
        let length = match faults.contains(&LENT) {
            true => *dice.pick(&[0, 1, 1023, 1025, 2048]),
            false => BLOCK_LENGTH,
        };
        let lent: Vec<u8> = (0..length).map(|_| dice.byte()).collect();
        visit(Asked::block(&writing, number, &lent, faults));
    }
}

pub fn sheets(dice: &mut Dice, visit: &mut Visit) {
    for turn in 0..32 * TIMES_EVERY_SET {
        let faults = set_of(&OF_A_SHEET, turn);
        let (writing, count) = with_faults(dice, &faults);
        let whole = count * BLOCK_LENGTH;
        let length = match faults.contains(&OUT) {
            true => *dice.pick(&[
                0,
                whole - BLOCK_LENGTH,
                whole - 1,
                whole + 1,
                whole + BLOCK_LENGTH,
            ]),
            false => whole,
        };
        visit(Asked::sheet(&writing, length, faults));
    }
}

fn set_of(faults: &[usize], turn: usize) -> Vec<usize> {
    let chosen = |place: &usize| turn >> place & 1 == 1;
    let places = (0..faults.len()).filter(chosen);
    places.map(|place| faults[place]).collect()
}

/// A small sheet with these faults of template and cells, and its count of blocks without.
fn with_faults(dice: &mut Dice, faults: &[usize]) -> (Writing, usize) {
    let mut order = whole::small(dice);
    let header = record_a::check(&order.template).expect("a valid template");
    let need = header.cells();
    let count = write::block_count(&order.template, &order.cells).expect("fit cells") as usize;
    if faults.contains(&CELL) {
        let any = dice.size(0, need - 1);
        for place in [*dice.pick(&[0, any, need - 1]), any] {
            order.cells[place] = unfit_cell(dice, header.step());
        }
    }
    if faults.contains(&GRID) {
        let any = dice.size(0, need - 1);
        order
            .cells
            .truncate(*dice.pick(&[need - 1, need - 1, any, 0]));
    }
    if faults.contains(&TEMPLATE) {
        order.template = damaged_template(dice, order.template);
    }
    if faults.contains(&TEMPLATE_LENGTH) {
        let any = dice.size(0, BLOCK_LENGTH - 1);
        let length = *dice.pick(&[0, 1, 1023, 1025, 2048, any]);
        order.template.resize(length, b' ');
    }
    let writing = Writing {
        template: order.template,
        cells: order.cells,
        room: dice.size(0, 4),
    };
    (writing, count)
}

/// A number mistyped, or other damage; some leaves a template valid, and is tried again.
fn damaged_template(dice: &mut Dice, mut template: Vec<u8>) -> Vec<u8> {
    if dice.one_in(3) {
        mistype_a_spot(dice, USGS, Record::Header, &mut template);
        return template;
    }
    let sent = Sent {
        record: Record::Header,
        bytes: template,
    };
    loop {
        let block = damaged(dice, &sent);
        if record_a::check(&block).is_err() {
            return block;
        }
    }
}

/// Orders of every family: some blocks of each, and the sheet.
pub fn of_every_shape(dice: &mut Dice, visit: &mut Visit) {
    for turn in 0..TIMES_EVERY_SHAPE * orders::FAMILIES.len() {
        let family = &orders::FAMILIES[turn % orders::FAMILIES.len()];
        let order = (family.make)(dice);
        let writing = Writing {
            template: order.template,
            cells: order.cells,
            room: dice.size(0, 2),
        };
        let count = write::block_count(&writing.template, &writing.cells).unwrap_or(3) as usize;
        let any = dice.size(0, count - 1);
        let lent = vec![b'#'; BLOCK_LENGTH];
        for number in [0, any, count - 1, count] {
            visit(Asked::block(&writing, number as u32, &lent, Vec::new()));
        }
        for length in [count, count, count + 1].map(|count| count * BLOCK_LENGTH) {
            visit(Asked::sheet(&writing, length, Vec::new()));
        }
    }
}
