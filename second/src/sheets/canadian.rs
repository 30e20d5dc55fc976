//! Canadian sheets (02, request 2): headers that obey the family's record A, in many hands and
//! from every part of the world, the blocks of their first profiles, and damage to block 0.

use super::aimed::spoil_a_real;
use super::damage::{damaged, mistype_a_spot, nudge, Field, CORNER_FIELDS, HEADER_FIELDS};
use super::head::{
    at_or_above, at_or_below, corners, height_spacing, inside, later, Head, Sides, LETTERS,
};
use super::{hand, posts, put, Plan, Sent};
use crate::block::{Record, HUNDREDTH, UNIT};
use crate::corner_text::{
    ANGLE_WIDTH, DEGREES_WIDTH, LATITUDE, LONGITUDE, MINUTES_WIDTH, SECONDS_WIDTH,
};
use crate::dice::Dice;
use crate::family::{Pair, CANADIAN, CANADIAN_SIDE, PAIRS};
use crate::kept::clauses::is_real;
use crate::lattice::Axis;
use crate::number;
use crate::record_a::Header;

/// Cells of every Canadian sheet.
pub const CELLS: usize = (CANADIAN_SIDE * CANADIAN_SIDE) as usize;

/// Bytes 1 to 144.
const FRONT: usize = 144;

/// An angle as it is written in the corner's text, and what it says in billionths of a second.
#[derive(Clone, Debug)]
pub struct Angle {
    pub text: Vec<u8>,
    pub value: i64,
}

/// Seconds of every spelling that seven bytes hold. Without a point they have four decimals.
const SECONDS: [&str; 40] = [
    "0.0000", "00.0000", "0", "0.0", ".0", "-0.0000", "-0", "+0.0", "0D+99", "0.", "30.0000",
    "30.", "3.E1", "3.0D+01", "1.5E+01", "59.9999", "0.0001", "0.00001", "0.75", "22.5", "1.0D-09",
    "1.D-9", "+7.5", ".5", "45.0000", "15.", "599.D-1", "300000", "3E5", "30", "150000", "0450000",
    "+75E2", "225E+3", "599999", "599D+03", "1", "1D-1", "1D-5", "15D-05",
];

/// Any angle up to so many degrees from zero, both sides of it; often a whole, half or quarter
/// degree, as sheets lie.
pub fn angle(dice: &mut Dice, reach: i64) -> Angle {
    let any = dice.between(0, reach);
    let degrees = *dice.pick(&[any, any, any, 0, 0, 1, reach]);
    let any = dice.between(0, 59);
    let minutes = *dice.pick(&[0, 0, 15, 30, 45, any, 59]);
    let negative = dice.one_in(2);
    let seconds = seconds_text(dice);
    let size = (degrees * 3600 + minutes * 60) * UNIT + number::real(&seconds).value;
    let text = [
        degrees_text(dice, negative, degrees),
        minutes_text(dice, minutes),
        seconds,
    ];
    Angle {
        text: text.concat(),
        value: if negative { -size } else { size },
    }
}

/// A corner must be a real of 15 digits, whatever seven bytes of seconds can say.
fn corner_angle(dice: &mut Dice, reach: i64) -> Angle {
    loop {
        let angle = angle(dice, reach);
        if is_real(angle.value) {
            return angle;
        }
    }
}

/// The minus stands before zero degrees too.
fn degrees_text(dice: &mut Dice, negative: bool, degrees: i64) -> Vec<u8> {
    let sign = match negative {
        true => "-",
        false => *dice.pick(&["", "", "", "+"]),
    };
    integer_text(dice, sign, degrees, DEGREES_WIDTH)
}

fn minutes_text(dice: &mut Dice, minutes: i64) -> Vec<u8> {
    let sign = match minutes {
        0 => *dice.pick(&["", "", "", "+", "-"]),
        _ => *dice.pick(&["", "", "", "+"]),
    };
    integer_text(dice, sign, minutes, MINUTES_WIDTH)
}

/// Right-justified, at times with zeros between sign and digits; a plus only if it has room.
fn integer_text(dice: &mut Dice, sign: &str, value: i64, width: usize) -> Vec<u8> {
    let mut text = value.to_string();
    let sign = match sign {
        "+" if text.len() == width => "",
        _ => sign,
    };
    if dice.one_in(3) {
        let room = width.saturating_sub(text.len() + sign.len());
        text.insert_str(0, &"0".repeat(dice.size(0, room)));
    }
    format!("{:>width$}", format!("{sign}{text}")).into_bytes()
}

fn seconds_text(dice: &mut Dice) -> Vec<u8> {
    let text = match dice.size(0, 5) {
        0 | 1 => "0.0000".to_string(),
        2 => format!("{}.{:04}", dice.between(0, 59), dice.between(0, 9_999)),
        3 => dice.between(0, 599_999).to_string(),
        _ => dice.pick(&SECONDS).to_string(),
    };
    hand::justified(dice, text.into_bytes(), SECONDS_WIDTH)
}

/// A valid header of any of the six pairs.
pub fn head(dice: &mut Dice) -> Head {
    let &pair = dice.pick(&PAIRS);
    head_of(dice, pair)
}

pub fn head_of(dice: &mut Dice, (y_spacing, x_spacing): Pair) -> Head {
    let reach = *dice.pick(&[180, 180, 180, 1, 999]);
    let longitude = corner_angle(dice, reach);
    let latitude = corner_angle(dice, reach.min(90));
    let (west, xs) = axis_from(dice, longitude.value, x_spacing);
    let (south, ys) = axis_from(dice, latitude.value, y_spacing);
    Head {
        text: front(dice, &longitude, &latitude),
        numbers: Header {
            family: CANADIAN,
            level: 1,
            system: 0,
            zone: 0,
            ground_unit: 3,
            vertical_unit: 2,
            corners: corners(xs, ys),
            stated_least: dice.between(-5_000_000, 0) * HUNDREDTH,
            stated_greatest: dice.between(0, 5_000_000) * HUNDREDTH,
            accuracy: 0,
            x_spacing,
            y_spacing,
            z_spacing: height_spacing(dice, 2),
            n: CANADIAN_SIDE,
        },
        later: later(dice),
        columns: CANADIAN_SIDE,
        rows: CANADIAN_SIDE,
        west,
        south,
    }
}

/// A lattice of 1201 multiples around a south-west corner that is given, and both sides along
/// the axis, its own first. Most often that corner is the least; corners needn't lie on the
/// lattice (READINGS-02, 2.12).
fn axis_from(dice: &mut Dice, corner: i64, spacing: i64) -> (i64, Sides) {
    let above = Axis::between(corner, corner + spacing, spacing).start();
    let outside = dice.one_in(4);
    let first = match outside {
        true => above - dice.between(1, 1_100) * spacing,
        false => above,
    };
    let last = first + (CANADIAN_SIDE - 1) * spacing;
    let greatest = at_or_above(dice, last, spacing);
    let other = match !outside && dice.one_in(4) {
        true => inside(dice, corner, last),
        false => at_or_below(dice, first, spacing),
    };
    let mut sides = [(corner, greatest), (other, greatest)];
    if dice.one_in(3) {
        let short = dice.size(0, 1);
        let from = sides[short].0;
        sides[short].1 = -inside(dice, -greatest, -from);
    }
    (first, sides)
}

const SMALL_LETTERS: &[u8] = b"abcdefghijklmnopqrstuvwxyz0123456789 ABC,.-'_~";
pub const ORIGIN_TEXTS: [&str; 19] = [
    "NTDB", "BC  ", "MB  ", "NB  ", "NL  ", "NS  ", "NT  ", "NU  ", "ON  ", "PE  ", "AB  ", "QC  ",
    "SK  ", "YT  ", "MULT", "    ", "MAC ", "  BC", "MUL ",
];

/// Name, producer, filler, corner, process code, section, origin; one in three in capitals only,
/// so that USGS rules too would pass it.
fn front(dice: &mut Dice, longitude: &Angle, latitude: &Angle) -> Vec<u8> {
    let mut text = vec![b' '; FRONT];
    let letters = match dice.one_in(3) {
        true => LETTERS,
        false => SMALL_LETTERS,
    };
    let name: Vec<u8> = (0..dice.size(0, 40)).map(|_| *dice.pick(letters)).collect();
    let left = *dice.pick(&[0, 40 - name.len()]);
    put(&mut text, left + 1, &name);
    if dice.one_in(2) {
        text[40..100].fill_with(|| *dice.pick(letters));
    }
    put(&mut text, LONGITUDE, &longitude.text);
    put(&mut text, LATITUDE, &latitude.text);
    put(&mut text, 136, &[*dice.pick(b"89A 1~-")]);
    if dice.one_in(4) {
        text[137..140].fill_with(|| *dice.pick(LETTERS));
    }
    put(&mut text, 141, dice.pick(&ORIGIN_TEXTS).as_bytes());
    text
}

/// The first profiles of a sheet, and all of it if there are 1201. The sheet's extremes are
/// stated as those of these profiles.
pub fn plan(dice: &mut Dice, profiles: i64) -> Plan {
    let runs = (0..profiles).map(|_| posts::run_of(dice, CANADIAN_SIDE, CANADIAN_SIDE));
    let runs = runs.collect();
    Plan {
        head: head(dice),
        first_column: 0,
        runs,
        statistics: [0; 10],
    }
}

/// Stretches of text and filler, each with what may not stand in it.
const STRETCHES: [(usize, usize, &[u8]); 7] = [
    (1, 40, b"\0\x1F\x7F\x80\xE9\xFF"),
    (41, 100, b"\0\t\x1F\x7F\xE9\xFF"),
    (101, 109, b"0A-\0\xA0"),
    (136, 136, b"az\x7F\xE9\0"),
    (137, 137, b"0A_\0\xA0"),
    (138, 144, b"az\x7F\xE9\n"),
    (865, 1024, b"az\x7F\xE9\n"),
];

pub fn spoil_a_stretch(dice: &mut Dice, block: &mut [u8]) {
    let &(first, last, bytes) = dice.pick(&STRETCHES);
    let any = dice.size(first, last);
    let place = *dice.pick(&[first, last, any]);
    put(block, place, &[*dice.pick(bytes)]);
}

pub fn replace_a_part_of_the_corner(dice: &mut Dice, block: &mut [u8]) {
    dice.pick(&CORNER_FIELDS).spoil(dice, block);
}

/// Another angle, in longitude or latitude.
pub fn write_another_angle(dice: &mut Dice, block: &mut [u8]) {
    let other = angle(dice, 180);
    put(block, *dice.pick(&[LONGITUDE, LATITUDE]), &other.text);
}

/// One that the text says nothing of, by a spacing or by more than the sheet is wide.
fn move_a_corner(dice: &mut Dice, block: &mut [u8]) {
    let first = *dice.pick(&[595, 619, 643, 667, 691, 715]);
    let by = *dice.pick(&[3, 12, 7200]) * UNIT;
    nudge(dice, block, first, by);
}

/// All fields of the family's record A.
pub fn fields() -> Vec<Field> {
    [&CORNER_FIELDS[..], &HEADER_FIELDS].concat()
}

/// A block 0 with one or, at times, more things wrong.
pub fn damaged_header(dice: &mut Dice, block: &[u8]) -> Vec<u8> {
    let mut bytes = block.to_vec();
    for _ in 0..*dice.pick(&[1, 1, 1, 2, 3]) {
        match dice.size(0, 10) {
            0 | 1 => replace_a_part_of_the_corner(dice, &mut bytes),
            2 => spoil_a_stretch(dice, &mut bytes),
            3 => write_another_angle(dice, &mut bytes),
            4 => mistype_a_spot(dice, CANADIAN, Record::Header, &mut bytes),
            5 => move_a_corner(dice, &mut bytes),
            6 => spoil_a_real(dice, Record::Header, &mut bytes),
            _ => {
                let record = Record::Header;
                bytes = damaged(dice, &Sent { record, bytes });
            }
        }
    }
    bytes
}

/// Longitude or latitude as it stands in a block.
pub fn angle_text(block: &[u8], first: usize) -> Vec<u8> {
    block[first - 1..first - 1 + ANGLE_WIDTH].to_vec()
}
