//! Valid blocks with fields, bytes or lengths made wrong, and blocks that never were valid.

use super::any_block;
use crate::block::{stretch, Record, BLOCK_LENGTH};
use crate::dice::Dice;
use crate::sheets::damage::{damaged, mistypings, Field, HEADER_FIELDS};
use crate::sheets::{put, Sent};
use crate::texts::Visit;

/// Each field with each of its telling texts, alone, on sheets of all kinds.
pub fn every_field(dice: &mut Dice, visit: &mut Visit) {
    for field in HEADER_FIELDS {
        for text in field.telling_texts() {
            for _ in 0..20 {
                let mut block = any_block(dice);
                put(&mut block, field.first, &text);
                visit(&block);
            }
        }
    }
}

/// Each byte of each field struck wrong in many ways, on a sheet of its own for each field.
pub fn every_field_mistyped(dice: &mut Dice, visit: &mut Visit) {
    for field in HEADER_FIELDS {
        let block = any_block(dice);
        mistype(&field, &block, visit);
    }
}

pub(super) fn mistype(field: &Field, block: &[u8], visit: &mut Visit) {
    let text = stretch(block, field.first, field.first + field.width - 1);
    for text in mistypings(text) {
        let mut block = block.to_vec();
        put(&mut block, field.first, &text);
        visit(&block);
    }
}

pub fn every_byte(dice: &mut Dice, visit: &mut Visit) {
    for _ in 0..10 {
        let block = any_block(dice);
        for place in 0..BLOCK_LENGTH {
            let mut changed = block.clone();
            let any = dice.byte();
            changed[place] = *dice.pick(&[any, b' ', b'0', b'1', b'-', b'.', b'a', 127]);
            visit(&changed);
        }
    }
}

/// All 256 bytes where a text begins and ends, next to it, and in its middle.
pub fn text_bytes(dice: &mut Dice, visit: &mut Visit) {
    let places = [
        1, 2, 40, 41, 100, 140, 141, 144, 145, 864, 865, 900, 1023, 1024,
    ];
    for place in places {
        for byte in 0..=255 {
            let mut block = any_block(dice);
            put(&mut block, place, &[byte]);
            visit(&block);
        }
    }
}

pub fn several_faults(dice: &mut Dice, visit: &mut Visit) {
    for _ in 0..30_000 {
        let sent = Sent {
            record: Record::Header,
            bytes: any_block(dice),
        };
        visit(&damaged(dice, &sent));
    }
}

/// Valid blocks cut short or gone on, by little, by whole blocks, and by so much that a
/// length cut to 16 bits looks right.
pub fn other_lengths(dice: &mut Dice, visit: &mut Visit) {
    let lengths = [
        0, 1, 2, 6, 24, 40, 144, 512, 864, 1000, 1022, 1023, 1024, 1025, 1026, 1100, 1280, 2047,
        2048, 2049, 3072, 4096, 65_536, 66_560, 131_072,
    ];
    for _ in 0..40 {
        for length in lengths {
            let block = any_block(dice);
            let repeated: Vec<u8> = block.iter().copied().cycle().take(length).collect();
            visit(&repeated);
            let mut blank = block;
            blank.resize(length, b' ');
            visit(&blank);
        }
    }
}

pub fn random_bytes(dice: &mut Dice, visit: &mut Visit) {
    for turn in 0..6_000 {
        let mut block: Vec<u8> = (0..BLOCK_LENGTH).map(|_| dice.byte()).collect();
        if turn % 3 == 1 {
            let letters = b"0123456789 +-.DEA";
            block.fill_with(|| *dice.pick(letters));
        }
        if turn % 3 == 2 {
            keep_the_front(dice, &mut block);
        }
        visit(&block);
    }
}

/// A valid front before bytes of chance, so that a later field is the first wrong one.
fn keep_the_front(dice: &mut Dice, block: &mut [u8]) {
    let valid = any_block(dice);
    let kept = dice.size(1, BLOCK_LENGTH);
    put(block, 1, &valid[..kept]);
}
