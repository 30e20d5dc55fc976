//! The interface of `replay` (docs/MANUAL.md, "Looking at a recorded line"): scripts of deliveries,
//! and the lines this program's own loader answers to one.

use crate::block::{Record, BLOCK_LENGTH, USUAL_CELLS};
use crate::family::USGS;
use crate::load::{deliver, Answer, Session};
use crate::meaning::Figures;
use crate::pointless;
use std::collections::BTreeSet;
use std::fmt::Write;

pub const MOST_CELLS: u32 = USUAL_CELLS as u32;
pub const MOST_BYTES: u32 = 4_096;
const CELL_AT_START: i32 = 7;

/// Writes a script, its numbers of four bytes with the largest byte first.
#[derive(Clone)]
pub struct Script {
    pub bytes: Vec<u8>,
    /// Where each delivery ends.
    ends: Vec<usize>,
}

impl Script {
    pub fn new(cells: u32) -> Script {
        Script {
            bytes: cells.to_be_bytes().to_vec(),
            ends: Vec::new(),
        }
    }

    pub fn deliver(&mut self, lent: u32, number: u32, block: &[u8]) {
        self.announce(lent, number, block.len() as u32);
        self.bytes.extend_from_slice(block);
        self.ends.push(self.bytes.len());
    }

    pub fn deliveries(&self) -> usize {
        self.ends.len()
    }

    /// Leaves out all after this many deliveries, of which there is at least one.
    pub fn break_off_after(&mut self, deliveries: usize) {
        self.bytes.truncate(self.ends[deliveries - 1]);
        self.ends.truncate(deliveries);
    }

    /// What stands before a delivery's bytes.
    pub fn announce(&mut self, lent: u32, number: u32, length: u32) {
        for figure in [lent, number, length] {
            self.bytes.extend(figure.to_be_bytes());
        }
    }
}

/// What one delivery of a script met: the record then awaited, and the answer.
#[derive(Clone, Copy, Debug, PartialEq)]
pub struct Event {
    pub awaited: Option<Record>,
    pub answer: Answer,
}

/// The whole output of a script, and what happened on the way.
#[derive(Default)]
pub struct Outcome {
    pub output: String,
    pub events: Vec<Event>,
    /// What the session line says; None where the script is bad.
    pub figures: Option<Figures>,
    /// Reals without a point, and what came of them.
    pub pointless: BTreeSet<String>,
}

impl Outcome {
    pub fn bad(&self) -> bool {
        self.figures.is_none()
    }
}

pub fn run(script: &[u8]) -> Outcome {
    let mut outcome = Outcome::default();
    outcome.figures = run_deliveries(script, &mut outcome);
    if outcome.bad() {
        outcome.output.push_str("bad script\n");
    }
    outcome
}

/// None where the script is bad: it ends too soon, or names too many cells or bytes.
fn run_deliveries(mut rest: &[u8], outcome: &mut Outcome) -> Option<Figures> {
    let cells = take_figure(&mut rest, MOST_CELLS)?;
    let mut grid = vec![CELL_AT_START; cells as usize];
    let mut session = Session::fresh();
    while !rest.is_empty() {
        let lent = take_figure(&mut rest, cells)?;
        let number = take_figure(&mut rest, u32::MAX)?;
        let length = take_figure(&mut rest, MOST_BYTES)?;
        let bytes = take_bytes(&mut rest, length as usize)?;
        let awaited = session.awaits();
        let answer = deliver(&mut session, number, bytes, &mut grid[..lent as usize]);
        outcome.events.push(Event { awaited, answer });
        outcome
            .pointless
            .extend(shown_without_point(awaited, answer, number, bytes));
        outcome.output.push_str(&line_of(answer));
    }
    let figures = session.figures();
    // A script lends one grid and nobody else touches it: demand 3's premise.
    assert_eq!(session.sum_in(&grid), figures.sum);
    write_end(&mut outcome.output, session.taken(), &figures, &grid);
    Some(figures)
}

fn shown_without_point(
    awaited: Option<Record>,
    answer: Answer,
    number: u32,
    bytes: &[u8],
) -> Vec<String> {
    let fault = match answer {
        Answer::Taken => (0, 0),
        Answer::Refused(refusal) if refusal.block == number => (refusal.kind, refusal.byte),
        _ => return Vec::new(),
    };
    match awaited {
        Some(record) if bytes.len() == BLOCK_LENGTH => pointless::shown(USGS, record, bytes, fault),
        _ => Vec::new(),
    }
}

fn take_bytes<'a>(rest: &mut &'a [u8], count: usize) -> Option<&'a [u8]> {
    let (taken, left) = rest.split_at_checked(count)?;
    *rest = left;
    Some(taken)
}

fn take_figure(rest: &mut &[u8], most: u32) -> Option<u32> {
    let bytes = take_bytes(rest, 4)?;
    let figure = u32::from_be_bytes(bytes.try_into().ok()?);
    (figure <= most).then_some(figure)
}

fn line_of(answer: Answer) -> String {
    match answer {
        Answer::Taken => "taken\n".to_string(),
        Answer::Held => "held\n".to_string(),
        Answer::Refused(refusal) => refusal.line(),
    }
}

fn write_end(output: &mut String, taken: usize, figures: &Figures, grid: &[i32]) {
    let written = writeln!(
        output,
        "session {} {} {} {} {} {} {}\ncells {}",
        taken,
        figures.closed,
        figures.posts,
        figures.filled,
        figures.least,
        figures.greatest,
        figures.sum,
        grid.len()
    );
    written.expect("a text in memory takes every line");
    for cell in grid {
        output.push_str(&cell.to_string());
        output.push('\n');
    }
}
