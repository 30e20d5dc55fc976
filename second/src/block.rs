//! A block and the fields in it. Bytes are counted from 1, as in the papers. A reading that
//! fails is a fault at the first byte of its field; one of wrong form, at the very byte that makes
//! it so (02, request 6).

use crate::kind::{WRONG_FORM, WRONG_TEXT};
use crate::number::{self, Reading};
use std::ops::RangeInclusive;

pub const BLOCK_LENGTH: usize = 1024;
pub const INTEGER_WIDTH: usize = 6;
pub const REAL_WIDTH: usize = 24;
pub const SPACING_WIDTH: usize = 12;

/// A real is kept in billionths, a cell and a datum in hundredths of a unit.
pub const UNIT: i64 = 1_000_000_000;
pub const HUNDREDTH: i64 = UNIT / 100;

/// The cells that lister, replay and sender have for a sheet.
pub const USUAL_CELLS: usize = 15_000;

/// Kind and byte of what is wrong with a block.
pub type Fault = (u32, u32);

/// The records a block can belong to; a profile's first block differs from the others.
#[derive(Clone, Copy, Debug, PartialEq, Eq, PartialOrd, Ord)]
pub enum Record {
    Header,
    ProfileStart,
    ProfileRest,
    Statistics,
}

impl Record {
    pub const ALL: [Record; 4] = [
        Record::Header,
        Record::ProfileStart,
        Record::ProfileRest,
        Record::Statistics,
    ];
}

pub fn stretch(block: &[u8], first: usize, last: usize) -> &[u8] {
    &block[first - 1..last]
}

/// Writes a field, or any text, at a byte counted from 1.
pub fn put(block: &mut [u8], first: usize, text: &[u8]) {
    block[first - 1..first - 1 + text.len()].copy_from_slice(text);
}

pub fn demand(holds: bool, kind: u32, byte: usize) -> Result<(), Fault> {
    if holds {
        Ok(())
    } else {
        Err((kind, byte as u32))
    }
}

pub fn integer(block: &[u8], first: usize) -> Result<i64, Fault> {
    integer_of(block, first, INTEGER_WIDTH)
}

/// An integer of another width than most.
pub fn integer_of(block: &[u8], first: usize, width: usize) -> Result<i64, Fault> {
    value_of(
        number::integer(stretch(block, first, first + width - 1)),
        first,
    )
}

/// The value that was read in a field at `first`, or the fault.
fn value_of(reading: Reading, first: usize) -> Result<i64, Fault> {
    let byte = match reading.kind {
        // Bytes of a field are counted from 1 too (READINGS-02, 6.2).
        WRONG_FORM => first + reading.byte as usize - 1,
        _ => first,
    };
    demand(reading.kind == number::FINE, reading.kind, byte)?;
    Ok(reading.value)
}

/// The reading's own kind comes before the rule of the field (READINGS 9).
pub fn integer_within(
    block: &[u8],
    first: usize,
    permitted: RangeInclusive<i64>,
    kind: u32,
) -> Result<i64, Fault> {
    let value = integer(block, first)?;
    demand(permitted.contains(&value), kind, first)?;
    Ok(value)
}

/// A real in billionths.
pub fn real(block: &[u8], first: usize, width: usize) -> Result<i64, Fault> {
    value_of(
        number::real(stretch(block, first, first + width - 1)),
        first,
    )
}

/// A real of which only the form is judged: one too large or too fine passes (READINGS 11).
pub fn real_form(block: &[u8], first: usize, width: usize) -> Result<(), Fault> {
    match real(block, first, width) {
        Err((WRONG_FORM, byte)) => Err((WRONG_FORM, byte)),
        _ => Ok(()),
    }
}

/// Nothing but blanks from byte `first` to the block's end, judged together (READINGS 18).
pub fn blank_rest(block: &[u8], first: usize) -> Result<(), Fault> {
    blank(block, first, BLOCK_LENGTH)
}

/// A stretch of filler.
pub fn blank(block: &[u8], first: usize, last: usize) -> Result<(), Fault> {
    let filler = stretch(block, first, last);
    demand(filler.iter().all(|&byte| byte == b' '), WRONG_TEXT, first)
}
