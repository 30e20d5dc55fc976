//! A plain loader. Its session is the list of blocks taken and the family named when it was
//! opened, nothing else: whatever is asked of it is read again from those blocks, joined as one
//! text.

use crate::block::{Record, BLOCK_LENGTH};
use crate::family::is_known;
use crate::kind::{GRID_TOO_SHORT, SHEET_COMPLETE, TOO_EARLY, UNSOUND, WRONG_LENGTH};
use crate::meaning::{self, sum_of_cells, Block, Figures, Refusal, Sheet};

#[derive(Clone, Debug, Default, PartialEq)]
pub struct Session {
    family: i64,
    taken: Vec<Block>,
}

#[derive(Clone, Copy, Debug, PartialEq)]
pub enum Answer {
    Taken,
    Held,
    Refused(Refusal),
}

impl Session {
    pub fn fresh() -> Session {
        Session::default()
    }

    /// Any number opens; a family that nobody knows is met at the delivery (READINGS-02, 2.2).
    pub fn opened(family: i64) -> Session {
        Session {
            family,
            taken: Vec::new(),
        }
    }

    pub fn taken(&self) -> usize {
        self.taken.len()
    }

    /// What the taken blocks mean; None before block 0.
    pub fn sheet(&self) -> Option<Sheet> {
        if self.taken.is_empty() {
            return None;
        }
        let sheet = meaning::read_of(self.family, &self.taken);
        Some(sheet.expect("a block is taken only if all read well"))
    }

    pub fn figures(&self) -> Figures {
        let sheet = self.sheet();
        sheet.map_or(Figures::default(), |sheet| sheet.figures())
    }

    /// What request 1 of document 02 holds the session's sum against: the sum over the
    /// filled cells of the sheet in the grid lent for it, cells past the sheet left out.
    pub fn sum_in(&self, grid: &[i32]) -> i64 {
        let sheet = self.sheet();
        sheet.map_or(0, |sheet| sum_of_cells(&grid[..sheet.header.cells()]))
    }

    pub fn awaits(&self) -> Option<Record> {
        let sheet = self.sheet();
        sheet.map_or(Some(Record::Header), |sheet| sheet.awaits())
    }
}

/// One delivery. Held and refused change neither session nor grid.
pub fn deliver(session: &mut Session, number: u32, bytes: &[u8], grid: &mut [i32]) -> Answer {
    if bytes.len() != BLOCK_LENGTH {
        return refused(WRONG_LENGTH, number);
    }
    if !is_known(session.family) {
        return refused(UNSOUND, number);
    }
    let next = session.taken() as u32;
    if number < next {
        return Answer::Held;
    }
    if number > next {
        return refused(TOO_EARLY, number);
    }
    if let Some(sheet) = session.sheet() {
        if sheet.complete() {
            return refused(SHEET_COMPLETE, number);
        }
        if grid.len() < sheet.header.cells() {
            return refused(GRID_TOO_SHORT, number);
        }
    }
    read_on(session, number, bytes, grid)
}

/// The taken blocks and this one, joined; any fault now is one that this block brings.
fn read_on(session: &mut Session, number: u32, bytes: &[u8], grid: &mut [i32]) -> Answer {
    let mut text = session.taken.clone();
    text.push(bytes.to_vec());
    let sheet = match meaning::read_of(session.family, &text) {
        Err(refusal) => return Answer::Refused(refusal),
        Ok(sheet) => sheet,
    };
    let cells = sheet.header.cells();
    if grid.len() < cells {
        return refused(GRID_TOO_SHORT, number);
    }
    grid[..cells].copy_from_slice(&sheet.cells());
    session.taken = text;
    Answer::Taken
}

/// The kinds that give the delivered number and byte 0.
fn refused(kind: u32, number: u32) -> Answer {
    Answer::Refused(Refusal {
        kind,
        block: number,
        byte: 0,
    })
}
