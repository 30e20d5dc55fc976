//! The lister (01, "The lister, and one sheet"): blocks in, a few lines about the sheet
//! out. The whole input is read once as one text. That says the same as delivering block
//! after block, since a block's fault depends on the blocks before it and on no later one.

use crate::block::{BLOCK_LENGTH, HUNDREDTH, UNIT};
use crate::kind::{GRID_TOO_SHORT, SHEET_COMPLETE, WRONG_LENGTH};
use crate::meaning::{in_block, read, Block, Figures, Refusal, Sheet};
use crate::record_a::{self, Header};

#[derive(Clone, Debug)]
pub enum Outcome {
    Listed(Sheet),
    /// How many blocks were taken.
    Unfinished(usize),
    Refused(Refusal),
}

/// What a lister that lends `cells` cells makes of this input (READINGS 36).
pub fn list(input: &[u8], cells: usize) -> Outcome {
    let blocks: Vec<Block> = input.chunks(BLOCK_LENGTH).map(<[u8]>::to_vec).collect();
    let whole = input.len() / BLOCK_LENGTH;
    match read_whole_blocks(&blocks[..whole], cells) {
        Err(refusal) => Outcome::Refused(refusal),
        // A part of a block comes last, so every other refusal comes before its own.
        Ok(_) if whole < blocks.len() => Outcome::Refused(in_block(whole, (WRONG_LENGTH, 0))),
        Ok(Some(sheet)) if sheet.complete() => Outcome::Listed(sheet),
        Ok(_) => Outcome::Unfinished(whole),
    }
}

/// The first refusal, or the sheet as far as it came; None if there is no block.
fn read_whole_blocks(blocks: &[Block], cells: usize) -> Result<Option<Sheet>, Refusal> {
    let Some(first) = blocks.first() else {
        return Ok(None);
    };
    let header = record_a::check(first).map_err(|fault| in_block(0, fault))?;
    if cells < header.cells() {
        return Err(in_block(0, (GRID_TOO_SHORT, 0)));
    }
    let sheet = read(blocks)?;
    if sheet.blocks < blocks.len() {
        return Err(in_block(sheet.blocks, (SHEET_COMPLETE, 0)));
    }
    Ok(Some(sheet))
}

impl Outcome {
    /// What the program writes.
    pub fn output(&self) -> String {
        match self {
            Outcome::Listed(sheet) => lines(&sheet.header, &sheet.figures(), sheet.blocks),
            Outcome::Unfinished(taken) => format!("unfinished {taken}\n"),
            Outcome::Refused(refusal) => refusal.line(),
        }
    }
}

/// The four lines of a complete sheet of so many blocks.
pub fn lines(header: &Header, figures: &Figures, blocks: usize) -> String {
    format!(
        "sheet {} {} {} {} {}\nposts {} void {}\nrange {} {}\nend {}\n",
        header.rows().count(),
        header.columns().count(),
        ground_spacing(header.x_spacing),
        ground_spacing(header.y_spacing),
        two_decimals(header.step()),
        figures.posts,
        figures.posts - figures.filled,
        two_decimals(figures.least),
        two_decimals(figures.greatest),
        blocks
    )
}

/// Whole units as such, a spacing that is not whole with two decimals (DESIGN, request 2).
fn ground_spacing(spacing: i64) -> String {
    match spacing % UNIT {
        0 => (spacing / UNIT).to_string(),
        _ => two_decimals(spacing / HUNDREDTH),
    }
}

/// The sign is written apart: -5 hundredths have no whole part to carry it.
fn two_decimals(hundredths: i64) -> String {
    let sign = if hundredths < 0 { "-" } else { "" };
    let size = hundredths.abs();
    format!("{sign}{}.{:02}", size / 100, size % 100)
}
