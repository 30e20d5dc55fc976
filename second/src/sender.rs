//! The interface of `sender` (docs/MANUAL.md, "Sending a sheet"): a template and cells in,
//! a sheet's blocks or one line out.

use crate::block::{BLOCK_LENGTH, USUAL_CELLS};
use crate::write::{self, Written};

const CELL_LENGTH: usize = 4;

/// What an input holds, if it is none of the bad ones.
pub struct Parts<'a> {
    /// The first 1,024 bytes, or all there are.
    pub template: &'a [u8],
    pub cells: Vec<i32>,
}

#[derive(Clone, Debug, PartialEq)]
pub enum Outcome {
    BadInput,
    Refused { kind: u32, number: u32 },
    Sent(Vec<Written>),
}

/// None if the cells are not in whole fours or are too many. Cells stand largest byte
/// first, in two's complement.
pub fn parts_of(input: &[u8]) -> Option<Parts<'_>> {
    let (template, rest) = input.split_at(input.len().min(BLOCK_LENGTH));
    let whole = rest.len().is_multiple_of(CELL_LENGTH);
    if !whole || rest.len() / CELL_LENGTH > USUAL_CELLS {
        return None;
    }
    let cells = rest.chunks(CELL_LENGTH);
    let cells = cells.map(|four| i32::from_be_bytes([four[0], four[1], four[2], four[3]]));
    Some(Parts {
        template,
        cells: cells.collect(),
    })
}

/// A bad input is found out before all else.
pub fn run(input: &[u8]) -> Outcome {
    let Some(parts) = parts_of(input) else {
        return Outcome::BadInput;
    };
    match write::sheet_blocks(parts.template, &parts.cells) {
        Ok(blocks) => Outcome::Sent(blocks),
        Err((kind, number)) => Outcome::Refused { kind, number },
    }
}

impl Outcome {
    /// What the program writes.
    pub fn output(&self) -> Vec<u8> {
        match self {
            Outcome::BadInput => b"bad input\n".to_vec(),
            Outcome::Refused { kind, number } => format!("refused {kind} {number}\n").into_bytes(),
            Outcome::Sent(blocks) => blocks.concat(),
        }
    }
}
