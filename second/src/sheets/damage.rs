//! Damage to a block: a field replaced by a text that its rule, or a reading, is about, or
//! mistyped at any of its bytes, a byte changed, bytes shifted, a number moved a little. What comes
//! out may still obey every rule; that is for the two programs to agree on.

use super::{hand, put, Sent};
use crate::block::{Record, BLOCK_LENGTH, INTEGER_WIDTH, REAL_WIDTH, SPACING_WIDTH, UNIT};
use crate::dice::Dice;
use crate::family::USGS;
use crate::number;
use crate::profile::{FIRST_POST, POSTS_OF_FIRST_BLOCK, POSTS_OF_FURTHER_BLOCK};
use crate::spots::{fields_by_sort, Span};

/// A field and the texts on both sides of its own rule, to stand at its right end.
#[derive(Clone, Copy)]
pub struct Field {
    pub first: usize,
    pub width: usize,
    texts: &'static [&'static str],
}

const fn integer(first: usize, texts: &'static [&'static str]) -> Field {
    Field {
        first,
        width: INTEGER_WIDTH,
        texts,
    }
}

const fn real(first: usize, texts: &'static [&'static str]) -> Field {
    Field {
        first,
        width: REAL_WIDTH,
        texts,
    }
}

const fn spacing(first: usize, texts: &'static [&'static str]) -> Field {
    Field {
        first,
        width: SPACING_WIDTH,
        texts,
    }
}

/// A number of another width than these.
const fn part(first: usize, width: usize, texts: &'static [&'static str]) -> Field {
    Field {
        first,
        width,
        texts,
    }
}

const NEAR_ONE: &[&str] = &["0", "1", "2", "-1", "+01", "999999", "-99999"];
const CODES: &[&str] = &["-1", "-0", "0", "1", "2", "10", "999999"];
const ZONES: &[&str] = &[
    "-1", "0", "1", "60", "61", "9999", "10000", "999999", "-99999",
];
/// Without a point a spacing has six decimals (02, request 4): `9999000000` is 9999, and `9999`
/// is less than a hundredth.
const GROUND_SPACINGS: &[&str] = &[
    "0",
    "-1.",
    "1.",
    "0.5",
    "1.5",
    "1.00000001",
    "0.99999999",
    "9999.",
    "9998.5",
    "9999.00001",
    "10000.",
    "-30.",
    "1.D-9",
    "9999.D0",
    "99990.D-1",
    "30.0",
    "0.75",
    "3.",
    "6.",
    "12.",
    "1",
    "30",
    "9999",
    "10000",
    "1000000",
    "999999",
    "1000001",
    "1500000",
    "1D6",
    "10D-2",
    "1D-3",
    "9999000000",
    "9999000001",
    "9999E6",
    "99990E+05",
    "10000000000",
    "1E10",
    "-30000000",
    "30000000",
    "300000E+02",
    "300000E+01",
    "750000",
    "75E4",
    "3000000",
    "6E6",
    "12000000",
];
const HEIGHT_SPACINGS: &[&str] = &[
    "0",
    "-0.1",
    "1.",
    "1.01",
    "1.1",
    "2.",
    "0.1",
    "0.01",
    "0.011",
    "0.015",
    "0.05",
    "0.2",
    "0.25",
    "0.99",
    "0.9",
    "0.001",
    "1.D-9",
    "0.999999999",
    "0.100000001",
    "-1.",
    "1.D-2",
    ".1E0",
    "10.",
    "1",
    "10",
    "1000000",
    "1000001",
    "1010000",
    "100000",
    "100000E+01",
    "100000E-01",
    "10000",
    "15000",
    "50000",
    "990000",
    "999999",
    "1E4",
    "1E3",
    "-100000",
];
const PROFILE_COUNTS: &[&str] = &[
    "-1", "0", "1", "2", "1200", "1201", "1202", "2047", "2048", "2049", "999999", "-2048",
];
const POST_COUNTS: &[&str] = &[
    "-1", "0", "1", "2", "3", "145", "146", "147", "148", "316", "317", "318", "1200", "1201",
    "1202", "2047", "2048", "2049", "999999",
];
/// With fifteen decimals `1D13` is a hundredth, `1D12` a thousandth.
const DATUMS: &[&str] = &[
    "10000.",
    "-10000.",
    "10000.01",
    "-10000.01",
    "9999.99",
    "0.01",
    "0.001",
    "0.005",
    "-0.001",
    "9999.999",
    "10000.000000001",
    "1.D4",
    "1.D5",
    "2.5",
    "1.D-10",
    "1.D+9",
    "10000",
    "1D13",
    "-1D12",
    "25D14",
    "1D19",
    "-10000000000000000000",
    "10000010000000000000",
    "10000000000001000000",
    "10000000000000000001",
    "1D20",
    "1D+24",
];
const ANGLES: &[&str] = &[
    "0", "1.D-9", "-1.D-9", "90.", "-0D-99", "0D+99", "0.5", "1", "90", "90D15", "1D6", "-1D6",
    "1D5", "1D24",
];
const ELEVATIONS: &[&str] = &[
    "0",
    "1.D-9",
    "-0.01",
    "42767.",
    "-42767.",
    "0.005",
    "-32767.",
    "1.D-10",
    "1.D+9",
    "42767",
    "42767D15",
    "-32767000000000000000",
    "600000000000000000",
    "6D17",
    "1D6",
    "-1D5",
    "1D23",
    "-1D24",
];
const POSTS: &[&str] = &[
    "32767", "32768", "-32768", "-32767", "-32766", "+32767", "+32768", "99999", "-99999",
    "999999", "032767", "0", "-0",
];
const ERRORS: &[&str] = &["-1", "-0", "0", "+0", "1", "999999", "-99999"];

pub const HEADER_FIELDS: [Field; 39] = [
    integer(145, &["-1", "0", "1", "2", "3", "4", "5", "11", "+003"]),
    integer(151, NEAR_ONE),
    integer(157, &["-1", "0", "1", "2", "3", "-0", "10"]),
    integer(163, ZONES),
    real(169, &[]),
    real(193, &[]),
    real(217, &[]),
    real(241, &[]),
    real(265, &[]),
    real(289, &[]),
    real(313, &[]),
    real(337, &[]),
    real(361, &[]),
    real(385, &[]),
    real(409, &[]),
    real(433, &[]),
    real(457, &[]),
    real(481, &[]),
    real(505, &[]),
    integer(529, &["-1", "0", "1", "2", "3", "4"]),
    integer(535, &["-1", "0", "1", "2", "3"]),
    integer(541, &["-4", "0", "3", "4", "5", "+0004", "44"]),
    real(547, ELEVATIONS),
    real(571, ELEVATIONS),
    real(595, ELEVATIONS),
    real(619, ELEVATIONS),
    real(643, ELEVATIONS),
    real(667, ELEVATIONS),
    real(691, ELEVATIONS),
    real(715, ELEVATIONS),
    real(739, ELEVATIONS),
    real(763, ELEVATIONS),
    real(787, ANGLES),
    integer(811, CODES),
    spacing(817, GROUND_SPACINGS),
    spacing(829, GROUND_SPACINGS),
    spacing(841, HEIGHT_SPACINGS),
    integer(853, NEAR_ONE),
    integer(859, PROFILE_COUNTS),
];

const DEGREES: &[&str] = &[
    "-75", "75", "-0", "0", "+0", "-00", "-999", "9999", "+75", "-181", "5", "-1", "1", "0075",
];
const MINUTES: &[&str] = &[
    "-1", "-0", "+0", "0", "1", "9", "30", "59", "60", "61", "99", "+5",
];
/// Without a point they have four decimals: `600000` is 60, `60` is 0.006.
const SECONDS: &[&str] = &[
    "60.", "60.0000", "59.9999", "-1.", "-0.0000", "-0.0001", "0.0001", "0.00001", "1.D-9",
    "1.0D-09", "0", "30.0000", "30.", "1.5E+01", "99.9999", "6.E1", "599.E-1", "60.0001", "59.9D0",
    "1.D-10", "60", "600000", "599999", "600001", "3000000", "300000", "30", "-1", "-0", "6E5",
    "599E3", "1D-5", "1D-6", "1D12", "1D13", "9999999",
];

/// The corner in text of a Canadian record A: longitude, then latitude.
pub const CORNER_FIELDS: [Field; 6] = [
    part(110, 4, DEGREES),
    part(114, 2, MINUTES),
    part(116, 7, SECONDS),
    part(123, 4, DEGREES),
    part(127, 2, MINUTES),
    part(129, 7, SECONDS),
];

const PROFILE_FIELDS: [Field; 9] = [
    integer(1, NEAR_ONE),
    integer(7, &["-1", "0", "1", "2", "3", "4", "2048", "2049"]),
    integer(13, POST_COUNTS),
    integer(19, NEAR_ONE),
    real(25, ELEVATIONS),
    real(49, ELEVATIONS),
    real(73, DATUMS),
    real(97, ELEVATIONS),
    real(121, ELEVATIONS),
];

const STATISTICS_FIELDS: [Field; 10] = [
    integer(1, CODES),
    integer(7, ERRORS),
    integer(13, ERRORS),
    integer(19, ERRORS),
    integer(25, ERRORS),
    integer(31, CODES),
    integer(37, ERRORS),
    integer(43, ERRORS),
    integer(49, ERRORS),
    integer(55, ERRORS),
];

/// Six bytes each that are no integer.
const WRONG_INTEGERS: [&[u8]; 18] = [
    b"      ",
    b"1     ",
    b"    1 ",
    b"   1 1",
    b"    1.",
    b"   1.0",
    b"   1D0",
    b"     -",
    b"    - ",
    b"  -  1",
    b"   +-1",
    b"   1-1",
    b"\t    1",
    b"    \t1",
    b"\0    1",
    b"    1\0",
    b"\xA0    1",
    b"ABCDEF",
];

/// No reals, or reals that pass only in a field as wide as they are.
const WRONG_REALS: [&[u8]; 24] = [
    b"",
    b".",
    b"-.",
    b"1..0",
    b"1.0d+01",
    b"1.0e1",
    b"1.0+01",
    b"1.0D",
    b"1.0D+",
    b"1.0D+001",
    b"D+01",
    b".D+01",
    b"- 1.0",
    b"1 0",
    b"1.0 D1",
    b"1,0",
    b"+-1",
    b"\t1.0",
    b"1.0\0",
    b"\xA01.0",
    b"1.0D1.0",
    b"1.0F1",
    b"0x1",
    b"--1",
];

/// At the limits of the readings: size, billionths, digits, mantissas over 64 bits. Those without a
/// point are at a limit in fields of one width, 24, 12 or 7.
const REALS_AT_THE_LIMITS: [&[u8]; 43] = [
    b"1.D+9",
    b"-1.D9",
    b"1000000000.",
    b"-1000000000.",
    b"999999999.",
    b"999999999.9",
    b"1.D-10",
    b".5D-9",
    b"1.D-9",
    b"1.D99",
    b"1.D-99",
    b"0D99",
    b"-0D-99",
    b"123456789.1234567",
    b"1000000.000000001",
    b"999999999.999999",
    b"999999999.9999999",
    b"1000000000000000000.D-18",
    b"1.8446744073709551617D+0",
    b"1000000000.0000000001",
    b"1D99",
    b"1D-99",
    b"1D24",
    b"-1D+23",
    b"1D6",
    b"1D+5",
    b"1D15",
    b"-1D14",
    b"1D-3",
    b"1D-4",
    b"1D13",
    b"1D12",
    b"1D-5",
    b"-1D-6",
    b"999999999999",
    b"9999999",
    b"1000000000",
    b"999999999999999999999999",
    b"999999999999999000000000",
    b"10000000000000000000D-04",
    b"18446744073709551617D-04",
    b"1234567890123456789012D9",
    b"1234567890123456789012D3",
];

/// What is struck by mistake: keys that numbers have, in the wrong place, and others.
const KEYS: &[u8] = b" 0+-.DEdO,l/:x\t\0\x7F\xA0";

/// This text with each of its bytes in turn another key, and blank from there on.
pub fn mistypings(text: &[u8]) -> Vec<Vec<u8>> {
    let mut texts = Vec::new();
    for place in 0..text.len() {
        for &key in KEYS {
            let mut other = text.to_vec();
            other[place] = key;
            texts.push(other);
        }
        let mut ended = text.to_vec();
        ended[place..].fill(b' ');
        texts.push(ended);
    }
    texts
}

impl Field {
    /// Makes the field of this block wrong, or at least another.
    pub fn spoil(&self, dice: &mut Dice, block: &mut [u8]) {
        match dice.one_in(5) {
            true => self.mistype(dice, block),
            false => put(block, self.first, &self.telling_text(dice)),
        }
    }

    /// What stands there is typed once more, up to any byte rightly: then comes another key, one too
    /// many, one too few, or nothing more.
    fn mistype(&self, dice: &mut Dice, block: &mut [u8]) {
        let any = dice.size(0, self.width - 1);
        let place = *dice.pick(&[any, any, 0, self.width - 1]);
        let rest = &mut block[self.first - 1 + place..self.first - 1 + self.width];
        let key = *dice.pick(KEYS);
        match dice.size(0, 7) {
            0 => rest.fill(b' '),
            1 => {
                rest.rotate_left(1);
                rest[self.width - 1 - place] = b' ';
            }
            2 => {
                rest.rotate_right(1);
                rest[0] = key;
            }
            _ => rest[0] = key,
        }
    }

    /// Every text to try in this field, each as wide as the field.
    pub fn telling_texts(&self) -> Vec<Vec<u8>> {
        let mut texts: Vec<Vec<u8>> = self.texts.iter().map(|text| self.right(text)).collect();
        if self.width <= INTEGER_WIDTH {
            let ends = WRONG_INTEGERS.map(|text| &text[INTEGER_WIDTH - self.width..]);
            texts.extend(ends.map(<[u8]>::to_vec));
            return texts;
        }
        for text in WRONG_REALS.iter().chain(&REALS_AT_THE_LIMITS) {
            if text.len() <= self.width {
                texts.push(self.padded(text, 0));
                texts.push(self.padded(text, self.width - text.len()));
            }
        }
        texts
    }

    /// One of them, every other time one that is about the field's own rule.
    pub fn telling_text(&self, dice: &mut Dice) -> Vec<u8> {
        if !self.texts.is_empty() && dice.one_in(2) {
            let text: &str = dice.pick::<&str>(self.texts);
            return self.right(text);
        }
        dice.pick(&self.telling_texts()).clone()
    }

    fn right(&self, text: &str) -> Vec<u8> {
        self.padded(text.as_bytes(), self.width - text.len())
    }

    fn padded(&self, text: &[u8], left: usize) -> Vec<u8> {
        let mut field = vec![b' '; self.width];
        put(&mut field, left + 1, text);
        field
    }
}

pub fn fields_of(record: Record) -> &'static [Field] {
    match record {
        Record::Header => &HEADER_FIELDS,
        Record::ProfileStart => &PROFILE_FIELDS,
        Record::ProfileRest => &[],
        Record::Statistics => &STATISTICS_FIELDS,
    }
}

/// A post that a block of `record` may hold, at place `place` from its first.
pub fn post_field(record: Record, place: usize) -> Field {
    let first = if record == Record::ProfileStart {
        FIRST_POST
    } else {
        1
    };
    integer(first + place * INTEGER_WIDTH, POSTS)
}

/// The block with one or, at times, more things wrong.
pub fn damaged(dice: &mut Dice, sent: &Sent) -> Vec<u8> {
    let mut block = sent.bytes.clone();
    let times = *dice.pick(&[1, 1, 1, 2, 3]);
    for _ in 0..times {
        match dice.size(0, 10) {
            0..=3 => replace_a_field(dice, sent.record, &mut block),
            4 | 5 => change_a_byte(dice, &mut block),
            6 | 7 => nudge_a_real(dice, sent.record, &mut block),
            8 => mark_the_rest(dice, &mut block),
            9 => mistype_a_spot(dice, USGS, sent.record, &mut block),
            _ => shift_bytes(dice, &mut block),
        }
    }
    block
}

/// What no number has, wherever it stands.
pub const STRANGERS: &[u8] = b"O,lx/:\t\0\x7F\xA0\xFF";

/// A stranger in one of the block's numbers: each sort of field is as likely as the others, and so
/// are first byte, last byte, and any between.
pub fn mistype_a_spot(dice: &mut Dice, family: i64, record: Record, block: &mut [u8]) {
    let end = last_mark(block) + 1;
    let mut sorts = fields_by_sort(family, record);
    for fields in &mut sorts {
        fields.retain(|field| field.first - 1 + field.width <= end);
    }
    sorts.retain(|fields| !fields.is_empty());
    if sorts.is_empty() {
        return change_a_byte(dice, block);
    }
    let fields = dice.pick(&sorts);
    let &Span { first, width } = dice.pick(fields);
    let between = dice.size(1, (width - 2).max(1));
    let place = *dice.pick(&[0, between, width - 1]);
    put(block, first + place, &[*dice.pick(STRANGERS)]);
}

fn replace_a_field(dice: &mut Dice, record: Record, block: &mut [u8]) {
    let has_posts = matches!(record, Record::ProfileStart | Record::ProfileRest);
    let fields = fields_of(record);
    let field = if has_posts && (fields.is_empty() || dice.one_in(3)) {
        a_post(dice, record, block)
    } else {
        *dice.pick(fields)
    };
    field.spoil(dice, block);
}

/// Any post, or one of those around the last.
fn a_post(dice: &mut Dice, record: Record, block: &[u8]) -> Field {
    let most = if record == Record::ProfileStart {
        POSTS_OF_FIRST_BLOCK
    } else {
        POSTS_OF_FURTHER_BLOCK
    };
    let last = last_mark(block);
    let count = (last + 1).saturating_sub(post_field(record, 0).first) / INTEGER_WIDTH;
    let near = dice.size(count.saturating_sub(1), count + 1);
    let any = dice.size(0, count);
    post_field(record, (*dice.pick(&[any, any, near])).min(most - 1))
}

/// Where the last byte that is not blank stands, counted from 0.
fn last_mark(block: &[u8]) -> usize {
    block.iter().rposition(|&byte| byte != b' ').unwrap_or(0)
}

/// Bytes with a meaning in fields, and bytes that no text may hold.
const TELLING_BYTES: &[u8] = b"0123456789+-.DE  \t\0\x1F\x7F\x80\xA0\xFFaz`{~dez";

fn change_a_byte(dice: &mut Dice, block: &mut [u8]) {
    let (any, telling) = (dice.byte(), *dice.pick(TELLING_BYTES));
    let place = dice.size(0, BLOCK_LENGTH - 1);
    block[place] = *dice.pick(&[any, telling]);
}

/// Moves a real by as little as a billionth, or by as much as a few columns.
fn nudge_a_real(dice: &mut Dice, record: Record, block: &mut [u8]) {
    let wide = fields_of(record)
        .iter()
        .filter(|field| field.width == REAL_WIDTH);
    let wide: Vec<&Field> = wide.collect();
    if wide.is_empty() {
        return change_a_byte(dice, block);
    }
    let first = dice.pick(&wide).first;
    let by = *dice.pick(&[1, 1000, UNIT / 100, UNIT / 2, UNIT, 3 * UNIT, 30 * UNIT]);
    nudge(dice, block, first, by);
}

/// Adds `by` to a real, or takes it away; one that does not read counts as zero.
pub fn nudge(dice: &mut Dice, block: &mut [u8], first: usize, by: i64) {
    let value = number::real(&block[first - 1..first - 1 + REAL_WIDTH]).value;
    let moved = if dice.one_in(2) {
        value + by
    } else {
        value - by
    };
    let text = hand::real(dice, moved, REAL_WIDTH);
    put(block, first, &text);
}

/// The last byte that is not blank, or any after it, up to the very last.
fn mark_the_rest(dice: &mut Dice, block: &mut [u8]) {
    let last = last_mark(block);
    let any = dice.size(last, BLOCK_LENGTH - 1);
    let place = *dice.pick(&[any, (last + 1).min(BLOCK_LENGTH - 1), BLOCK_LENGTH - 1]);
    block[place] = *dice.pick(b"0X\0\t\xA0\n");
}

/// A byte lost, or one too many, and all after it out of place.
fn shift_bytes(dice: &mut Dice, block: &mut [u8]) {
    let place = dice.size(0, BLOCK_LENGTH - 1);
    if dice.one_in(2) {
        block[place..].rotate_left(1);
        block[BLOCK_LENGTH - 1] = b' ';
    } else {
        block[place..].rotate_right(1);
        block[place] = *dice.pick(b" 0");
    }
}
