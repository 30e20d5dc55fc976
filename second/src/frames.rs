//! The Load button's line (DESIGN, `load`): frames of a block's number, in four bytes with the
//! largest first, and its bytes; and what a press on a fresh state says to one.

use crate::block::BLOCK_LENGTH;
use crate::kept::{self, Kept, Told, DONE, HELD};
use crate::meaning::Refusal;
use crate::record_a;

const NUMBER_LENGTH: usize = 4;

/// A sheet's bytes as a line: its blocks in order, what is left at the end as the last.
pub fn line_of(sheet: &[u8]) -> Vec<u8> {
    let mut line = Vec::new();
    for (number, block) in sheet.chunks(BLOCK_LENGTH).enumerate() {
        line.extend((number as u32).to_be_bytes());
        line.extend(block);
    }
    line
}

/// "A frame cut short is delivered as it is, one cut inside its number is nothing."
fn frames_of(line: &[u8]) -> impl Iterator<Item = (u32, &[u8])> {
    let frames = line.chunks(NUMBER_LENGTH + BLOCK_LENGTH);
    frames.filter_map(|frame| {
        let (number, block) = frame.split_at_checked(NUMBER_LENGTH)?;
        Some((u32::from_be_bytes(number.try_into().ok()?), block))
    })
}

/// All that a press on a fresh state of this family writes for a line.
pub fn press(family: i64, line: &[u8]) -> String {
    let mut numbers = Kept::opened(family).numbers();
    let mut grid = Vec::new();
    let mut said = String::new();
    for (number, block) in frames_of(line) {
        if let Ok(header) = record_a::check_of(family, block) {
            if number == 0 && grid.is_empty() {
                grid = vec![0; header.cells()];
            }
        }
        let told = kept::deliver(&mut numbers, number, block, &mut grid);
        said += &refusal_line(told);
    }
    let kept = Kept::of(&numbers);
    said + &kept
        .report()
        .unwrap_or(format!("unfinished {}\n", kept.taken))
}

fn refusal_line(told: Told) -> String {
    let Told {
        result: kind,
        block,
        byte,
    } = told;
    match kind {
        DONE | HELD => String::new(),
        _ => Refusal { kind, block, byte }.line(),
    }
}
