//! Blocks 0 to compare two checks of a Canadian record A on (02, request 2), family by family of
//! inputs: valid ones in many spellings, and each rule broken alone and with others.

use super::wrong::mistype;
use crate::block::{BLOCK_LENGTH, HUNDREDTH, UNIT};
use crate::corner_text::{LATITUDE, LONGITUDE};
use crate::dice::Dice;
use crate::family::{CANADIAN_SIDE, PAIRS};
use crate::sheets::canadian::{
    angle, angle_text, damaged_header, fields, head, head_of, ORIGIN_TEXTS,
};
use crate::sheets::damage::nudge;
use crate::sheets::head::Head;
use crate::sheets::put;
use crate::texts::{Family, Visit};

pub const FAMILIES: &[Family] = &[
    Family {
        name: "Canadian, valid",
        make: valid,
    },
    Family {
        name: "Canadian, the six pairs",
        make: six_pairs,
    },
    Family {
        name: "Canadian, every field's texts",
        make: every_field,
    },
    Family {
        name: "Canadian, every field mistyped",
        make: every_field_mistyped,
    },
    Family {
        name: "Canadian, every byte changed",
        make: every_byte,
    },
    Family {
        name: "Canadian, bytes of texts",
        make: text_bytes,
    },
    Family {
        name: "Canadian, several faults",
        make: several_faults,
    },
    Family {
        name: "Canadian, pairs of spacings",
        make: pairs_of_spacings,
    },
    Family {
        name: "Canadian, corners astray",
        make: corners_astray,
    },
    Family {
        name: "Canadian, other lattices",
        make: other_lattices,
    },
    Family {
        name: "Canadian, whole-record rules",
        make: broken_rules,
    },
    Family {
        name: "Canadian, names and origins",
        make: names_and_origins,
    },
    Family {
        name: "Canadian, other lengths",
        make: other_lengths,
    },
];

/// For the calls that know of no family: they stay USGS, and take only what obeys both.
pub fn some_of_all(dice: &mut Dice, visit: &mut Visit) {
    for turn in 0..6_000 {
        let block = any_block(dice);
        match turn % 3 {
            0 => visit(&damaged_header(dice, &block)),
            _ => visit(&block),
        }
    }
}

fn any_block(dice: &mut Dice) -> Vec<u8> {
    head(dice).block(dice)
}

fn valid(dice: &mut Dice, visit: &mut Visit) {
    for _ in 0..19_000 {
        visit(&any_block(dice));
    }
}

fn six_pairs(dice: &mut Dice, visit: &mut Visit) {
    for pair in PAIRS {
        for _ in 0..400 {
            visit(&head_of(dice, pair).block(dice));
        }
    }
}

/// Each field with each of its telling texts, alone.
fn every_field(dice: &mut Dice, visit: &mut Visit) {
    for field in fields() {
        for text in field.telling_texts() {
            for _ in 0..6 {
                let mut block = any_block(dice);
                put(&mut block, field.first, &text);
                visit(&block);
            }
        }
    }
}

fn every_field_mistyped(dice: &mut Dice, visit: &mut Visit) {
    for field in fields() {
        let block = any_block(dice);
        mistype(&field, &block, visit);
    }
}

/// The front more often: there every byte has a rule of the family's own.
fn every_byte(dice: &mut Dice, visit: &mut Visit) {
    for turn in 0..40 {
        let block = any_block(dice);
        let last = if turn % 8 == 0 { BLOCK_LENGTH } else { 144 };
        for place in 0..last {
            let mut changed = block.clone();
            let any = dice.byte();
            changed[place] = *dice.pick(&[any, b' ', b'0', b'1', b'-', b'.', b'a', 127]);
            visit(&changed);
        }
    }
}

/// All 256 bytes where a stretch or a field begins and ends.
fn text_bytes(dice: &mut Dice, visit: &mut Visit) {
    let places = [
        1, 40, 41, 100, 101, 109, 110, 113, 114, 115, 116, 122, 123, 126, 127, 128, 129, 135, 136,
        137, 138, 140, 141, 144, 145, 864, 865, 1024,
    ];
    for place in places {
        for byte in 0..=255 {
            let mut block = any_block(dice);
            put(&mut block, place, &[byte]);
            visit(&block);
        }
    }
}

fn several_faults(dice: &mut Dice, visit: &mut Visit) {
    for _ in 0..12_000 {
        let block = any_block(dice);
        visit(&damaged_header(dice, &block));
    }
}

/// Hundredths of an arc-second; more than the list has, and none that could be one.
const SPACINGS: [i64; 13] = [
    75, 150, 300, 600, 1200, 0, -75, -300, 100, 200, 37, 2400, 76,
];

/// Every two of these, the lattice full where there can be one.
fn pairs_of_spacings(dice: &mut Dice, visit: &mut Visit) {
    for y in SPACINGS {
        for x in SPACINGS {
            for turn in 0..40 {
                let (y, x) = (y * HUNDREDTH, x * HUNDREDTH);
                let mut head = match turn % 2 == 0 && x > 0 && y > 0 {
                    true => head_of(dice, (y, x)),
                    false => head(dice),
                };
                (head.numbers.x_spacing, head.numbers.y_spacing) = (x, y);
                if dice.one_in(4) {
                    head.numbers.x_spacing += *dice.pick(&[1, -1, UNIT / 1000]);
                }
                visit(&head.block(dice));
            }
        }
    }
}

type Astray = fn(&mut Dice, &Head, &mut Vec<u8>);

/// Ways in which the corner in text is not that in numbers, most of which keep the lattice.
const ASTRAY: [Astray; 9] = [
    |dice, _, block| {
        let by = *dice.pick(&[1, 1000, HUNDREDTH, UNIT, 60 * UNIT, 3600 * UNIT]);
        let at = *dice.pick(&[547, 571]);
        nudge(dice, block, at, by);
    },
    |dice, _, block| {
        let at = *dice.pick(&[LONGITUDE, LATITUDE]);
        let other = with_another_sign(&angle_text(block, at));
        put(block, at, &other);
    },
    |dice, head, block| minutes_added(dice, head, block),
    |_, _, block| {
        let (longitude, latitude) = (angle_text(block, LONGITUDE), angle_text(block, LATITUDE));
        put(block, LONGITUDE, &latitude);
        put(block, LATITUDE, &longitude);
    },
    |_, head, block| {
        let [x, y, ..] = head.numbers.corners;
        put_corner(block, 547, y);
        put_corner(block, 571, x);
    },
    |dice, _, block| {
        let at = *dice.pick(&[LONGITUDE, LATITUDE]);
        put(block, at, &angle(dice, 2).text);
    },
    |_, head, block| put_corner(block, 547, -head.numbers.corners[0]),
    |_, head, block| put_corner(block, 571, -head.numbers.corners[1]),
    |dice, head, block| {
        // The other western, or the other southern, corner in its place.
        let (at, other) = *dice.pick(&[(547, 2), (571, 7)]);
        put_corner(block, at, head.numbers.corners[other]);
    },
];

fn put_corner(block: &mut [u8], first: usize, value: i64) {
    let text = format!("{:>24}", plain(value));
    put(block, first, text.as_bytes());
}

fn plain(billionths: i64) -> String {
    let sign = if billionths < 0 { "-" } else { "" };
    let size = billionths.unsigned_abs();
    let unit = UNIT as u64;
    format!("{sign}{}.{:09}", size / unit, size % unit)
}

/// The minus of the degrees lost, or one put where there was room for it.
fn with_another_sign(text: &[u8]) -> Vec<u8> {
    let mut other = text.to_vec();
    let first_digit = other.iter().position(u8::is_ascii_digit).unwrap_or(0);
    match other[..4].iter().position(|&byte| byte == b'-') {
        Some(minus) => other[minus] = b' ',
        None => other[first_digit.saturating_sub(1)] = b'-',
    }
    other
}

/// The numbers say what comes of minutes and seconds added to negative degrees.
fn minutes_added(dice: &mut Dice, head: &Head, block: &mut [u8]) {
    let axis = dice.size(0, 1);
    let value = head.numbers.corners[axis];
    let degree = 3600 * UNIT;
    let degrees = value / degree * degree;
    let wrong = degrees + (value - degrees).abs();
    put_corner(block, 547 + 24 * axis, wrong);
}

fn corners_astray(dice: &mut Dice, visit: &mut Visit) {
    for turn in 0..13_500 {
        let head = head(dice);
        let mut block = head.block(dice);
        ASTRAY[turn % ASTRAY.len()](dice, &head, &mut block);
        if dice.one_in(8) {
            block = damaged_header(dice, &block);
        }
        visit(&block);
    }
}

/// One of the axes with 1200 to 1202 multiples, its ends on a multiple or a billionth beside it.
/// The south-west corner stays what the text says.
fn other_lattices(dice: &mut Dice, visit: &mut Visit) {
    for turn in 0..10_000 {
        let mut head = head(dice);
        let numbers = &mut head.numbers;
        let (upper, spacing, first) = match turn % 2 {
            0 => ([4, 6], numbers.x_spacing, numbers.columns().start()),
            _ => ([3, 5], numbers.y_spacing, numbers.rows().start()),
        };
        let steps = CANADIAN_SIDE - 1 + dice.between(-2, 2);
        for corner in upper {
            numbers.corners[corner] = first + steps * spacing + dice.between(-1, 1);
        }
        visit(&head.block(dice));
    }
}

/// Every mixture of the rules over the whole record: corner, pair, order, lattice; and n.
fn broken_rules(dice: &mut Dice, visit: &mut Visit) {
    for turn in 0..9_600 {
        let mut head = head(dice);
        let numbers = &mut head.numbers;
        if turn & 1 != 0 {
            let (low, high) = *dice.pick(&[(0, 6), (2, 4), (1, 3), (7, 5)]);
            match dice.one_in(2) {
                true => numbers.corners.swap(low, high),
                false => numbers.corners[high] = numbers.corners[low],
            }
        }
        if turn & 2 != 0 {
            let upper = *dice.pick(&[4, 6, 3, 5]);
            numbers.corners[upper] += *dice.pick(&[12, 24, 7200]) * UNIT;
        }
        if turn & 4 != 0 {
            let spacing = *dice.pick(&SPACINGS) * HUNDREDTH;
            match dice.one_in(2) {
                true => numbers.x_spacing = spacing,
                false => numbers.y_spacing = spacing,
            }
        }
        if turn & 32 != 0 && dice.one_in(4) {
            numbers.n += *dice.pick(&[-1, 1, -1200]);
        }
        let mut block = head.block(dice);
        if turn & 8 != 0 {
            put(
                &mut block,
                *dice.pick(&[LONGITUDE, LATITUDE]),
                &angle(dice, 180).text,
            );
        }
        visit(&block);
    }
}

fn names_and_origins(dice: &mut Dice, visit: &mut Visit) {
    let near = [
        "NTDC", "ntdb", " BC ", "BC", "BCBC", "ABC ", "MULT", "QC\0 ", "YT", " YT", "FS  ", "WMC ",
    ];
    for turn in 0..6_000 {
        let mut block = any_block(dice);
        let known = ORIGIN_TEXTS[turn % ORIGIN_TEXTS.len()];
        let unlike = *dice.pick(&near);
        let origin = *dice.pick(&[known, known, unlike]);
        put(&mut block, 141, format!("{origin:4}").as_bytes());
        if dice.one_in(4) {
            let name: Vec<u8> = (0..40).map(|_| *dice.pick(b"  aZ9-")).collect();
            put(&mut block, 1, &name);
        }
        visit(&block);
    }
}

fn other_lengths(dice: &mut Dice, visit: &mut Visit) {
    for length in [0, 1, 100, 109, 135, 144, 1023, 1025, 2048, 66_560] {
        for _ in 0..8 {
            let mut block = any_block(dice);
            block.resize(length, b' ');
            visit(&block);
        }
    }
}
