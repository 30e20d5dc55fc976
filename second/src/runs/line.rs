//! Runs as a poor line brings them: blocks repeated in front, blocks missing, one damaged
//! inside, the end cut off or overshot.

use crate::block::BLOCK_LENGTH;
use crate::dice::Dice;
use crate::meaning::Block;
use crate::sheets::Sent;

/// The most blocks that one run has for a sheet.
const LONGEST: usize = 70;
/// No text, number or filler may hold it.
const STRANGER: u8 = 0xFF;

/// Number and bytes of a run.
pub type Brought = (u32, Vec<u8>);

/// A sheet on its way to a desk.
pub struct Line<'a> {
    pub blocks: &'a [Sent],
    /// The damage that this line does.
    pub spoilt: &'a dyn Fn(&mut Dice, &Sent) -> Block,
}

impl Line<'_> {
    /// Any run to a session that has taken so many blocks.
    pub fn brings(&self, dice: &mut Dice, taken: usize) -> Brought {
        let (gap, far) = (dice.size(1, 3), u32::MAX - dice.size(0, 3) as u32);
        let first = match dice.one_in(16) {
            true => taken + gap,
            false => taken - late(dice, taken),
        };
        let end = first.max(taken) + self.due(dice, taken);
        let mut bytes: Vec<u8> = (first..taken)
            .flat_map(|place| self.late_block(dice, place))
            .collect();
        let any = dice.size(taken, end);
        let spoilt = *dice.pick(&[None, None, None, Some(taken), Some(any), Some(any)]);
        for place in first.max(taken)..end {
            bytes.extend(match spoilt == Some(place) {
                true => (self.spoilt)(dice, self.block(place)),
                false => self.block(place).bytes.clone(),
            });
        }
        if dice.one_in(16) {
            add_an_odd_piece(dice, &mut bytes);
        }
        let number = if dice.one_in(25) { far } else { first as u32 };
        (number, bytes)
    }

    /// How many blocks from the one due on: few, many, or up to the end of the sheet, or past it.
    fn due(&self, dice: &mut Dice, taken: usize) -> usize {
        let rest = self.blocks.len().saturating_sub(taken);
        let (few, many) = (dice.size(1, 6), dice.size(1, LONGEST));
        let due = *dice.pick(&[0, 1, 2, few, few, many, many, rest, rest + 1]);
        due.min(LONGEST).min(rest + 2)
    }

    /// Past its end the sheet is sent from block 1 on again.
    pub fn block(&self, place: usize) -> &Sent {
        match self.blocks.get(place) {
            Some(block) => block,
            None => &self.blocks[1 + (place - self.blocks.len()) % (self.blocks.len() - 1)],
        }
    }

    /// Whatever it holds, nobody reads it (3.9).
    fn late_block(&self, dice: &mut Dice, place: usize) -> Block {
        match dice.size(0, 2) {
            0 => vec![STRANGER; BLOCK_LENGTH],
            1 => dice.pick(self.blocks).bytes.clone(),
            _ => self.block(place).bytes.clone(),
        }
    }
}

/// How many blocks come once more.
fn late(dice: &mut Dice, taken: usize) -> usize {
    let any = dice.size(0, taken.min(12));
    *dice.pick(&[0, 0, 0, any, taken.min(1)])
}

fn add_an_odd_piece(dice: &mut Dice, bytes: &mut Vec<u8>) {
    let any = dice.size(1, BLOCK_LENGTH - 1);
    let odd = *dice.pick(&[1, any, BLOCK_LENGTH - 1]);
    bytes.resize(bytes.len() + odd, b' ');
}

/// Damage that no rule lets pass.
pub fn marked(dice: &mut Dice, sent: &Sent) -> Block {
    let mut block = sent.bytes.clone();
    block[dice.size(0, BLOCK_LENGTH - 1)] = STRANGER;
    block
}
