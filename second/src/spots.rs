//! Where in its field a fault of form stands (02, request 6): at its first byte, at its last, or
//! strictly inside, by the sort of field and the record. A comparison that never met one of these
//! has compared too little: a reader that names the field, or always its end, might have passed.

use crate::block::{Fault, Record, INTEGER_WIDTH, REAL_WIDTH, SPACING_WIDTH};
use crate::corner_text::{DEGREES_WIDTH, LATITUDE, LONGITUDE, MINUTES_WIDTH, SECONDS_WIDTH};
use crate::family::CANADIAN;
use crate::kept::{self, Told};
use crate::kind::WRONG_FORM;
use crate::profile::FIRST_POST;

/// Fields of one width that stand side by side.
struct Row {
    first: usize,
    width: usize,
    count: usize,
    name: &'static str,
}

const fn row(first: usize, width: usize, count: usize, name: &'static str) -> Row {
    Row {
        first,
        width,
        count,
        name,
    }
}

const CODE: &str = "a code of record A";
const DEGREES: &str = "the corner's degrees";
const MINUTES: &str = "the corner's minutes";
const SECONDS: &str = "the corner's seconds";

/// How far into an angle its seconds begin.
const SECONDS_AT: usize = DEGREES_WIDTH + MINUTES_WIDTH;

const OF_A_CORNER_TEXT: [Row; 6] = [
    row(LONGITUDE, DEGREES_WIDTH, 1, DEGREES),
    row(LONGITUDE + DEGREES_WIDTH, MINUTES_WIDTH, 1, MINUTES),
    row(LONGITUDE + SECONDS_AT, SECONDS_WIDTH, 1, SECONDS),
    row(LATITUDE, DEGREES_WIDTH, 1, DEGREES),
    row(LATITUDE + DEGREES_WIDTH, MINUTES_WIDTH, 1, MINUTES),
    row(LATITUDE + SECONDS_AT, SECONDS_WIDTH, 1, SECONDS),
];

const OF_A_HEADER: [Row; 7] = [
    row(145, INTEGER_WIDTH, 4, CODE),
    row(169, REAL_WIDTH, 15, "a real of form only"),
    row(529, INTEGER_WIDTH, 3, CODE),
    row(547, REAL_WIDTH, 11, "a real of record A"),
    row(811, INTEGER_WIDTH, 1, CODE),
    row(817, SPACING_WIDTH, 3, "a spacing"),
    row(853, INTEGER_WIDTH, 2, CODE),
];

const OF_A_FIRST_BLOCK: [Row; 3] = [
    row(1, INTEGER_WIDTH, 4, "an integer of a profile's head"),
    row(25, REAL_WIDTH, 5, "a real of a profile's head"),
    row(FIRST_POST, INTEGER_WIDTH, 146, "a post of a first block"),
];

const OF_A_FURTHER_BLOCK: [Row; 1] = [row(1, INTEGER_WIDTH, 170, "a post of a further block")];

const OF_STATISTICS: [Row; 1] = [row(1, INTEGER_WIDTH, 10, "a number of record C")];

fn rows_of(family: i64, record: Record) -> Vec<&'static Row> {
    let corner: &[Row] = match family {
        CANADIAN => &OF_A_CORNER_TEXT,
        _ => &[],
    };
    match record {
        Record::Header => corner.iter().chain(&OF_A_HEADER).collect(),
        Record::ProfileStart => OF_A_FIRST_BLOCK.iter().collect(),
        Record::ProfileRest => OF_A_FURTHER_BLOCK.iter().collect(),
        Record::Statistics => OF_STATISTICS.iter().collect(),
    }
}

const FIRST: &str = "first byte";
const INSIDE: &str = "inside";
const LAST: &str = "last byte";
/// A field of two bytes has no inside.
const SPOTS: [&str; 3] = [FIRST, INSIDE, LAST];

impl Row {
    fn end(&self) -> usize {
        self.first + self.width * self.count
    }

    fn fields(&self) -> impl Iterator<Item = Span> + '_ {
        let fields = (self.first..self.end()).step_by(self.width);
        fields.map(|first| Span {
            first,
            width: self.width,
        })
    }

    /// Which byte of its field this one is, counted from 0.
    fn place(&self, byte: usize) -> usize {
        (byte - self.first) % self.width
    }

    fn spot(&self, place: usize) -> &'static str {
        match place {
            0 => FIRST,
            _ if place + 1 < self.width => INSIDE,
            _ => LAST,
        }
    }

    fn has(&self, spot: &str) -> bool {
        (0..self.width).any(|place| self.spot(place) == spot)
    }

    fn name(&self, family: i64, spot: &str) -> String {
        let of = if family == CANADIAN { "Canadian, " } else { "" };
        format!("{of}6 in {}, {spot}", self.name)
    }
}

fn row_at(family: i64, record: Record, byte: usize) -> Option<&'static Row> {
    let mut rows = rows_of(family, record).into_iter();
    rows.find(|row| (row.first..row.end()).contains(&byte))
}

/// The name of what a fault in a block of this record shows; None unless it is one of form.
pub fn shown(family: i64, record: Record, (kind, byte): Fault) -> Option<String> {
    if kind != WRONG_FORM {
        return None;
    }
    let byte = byte as usize;
    let row = row_at(family, record, byte)?;
    Some(row.name(family, row.spot(row.place(byte))))
}

/// The same of a delivery or a run that left these numbers. A refusal leaves the session as it
/// was before the block refused, so it says which record that block was taken for.
pub fn shown_by_delivery(numbers_after: &[i64], told: Told) -> Option<String> {
    let kept = kept::sound(numbers_after)?;
    let record = kept.awaits()?;
    shown(kept.header.family, record, (told.result, told.byte))
}

/// All that blocks of these records can show.
pub fn wanted(family: i64, records: &[Record]) -> Vec<String> {
    let mut names = Vec::new();
    for &record in records {
        for row in rows_of(family, record) {
            let spots = SPOTS.iter().filter(|spot| row.has(spot));
            names.extend(spots.map(|spot| row.name(family, spot)));
        }
    }
    names.sort_unstable();
    names.dedup();
    names
}

/// The same without the first bytes, at which other faults stand too: for comparisons of few inputs.
pub fn wanted_past_the_first(family: i64, records: &[Record]) -> Vec<String> {
    let mut names = wanted(family, records);
    names.retain(|name| !name.ends_with(FIRST));
    names
}

/// The bytes of a record that hold numbers: each of them can be the very byte.
pub fn number_bytes(family: i64, record: Record) -> Vec<u32> {
    let rows = rows_of(family, record).into_iter();
    rows.flat_map(|row| row.first as u32..row.end() as u32)
        .collect()
}

/// Where the field begins that has this byte; None where no number stands.
pub fn first_of_field(family: i64, record: Record, byte: u32) -> Option<u32> {
    let row = row_at(family, record, byte as usize)?;
    Some(byte - row.place(byte as usize) as u32)
}

/// A number, by its first byte and its width.
#[derive(Clone, Copy)]
pub struct Span {
    pub first: usize,
    pub width: usize,
}

/// The fields of a record, those of one sort together.
pub fn fields_by_sort(family: i64, record: Record) -> Vec<Vec<Span>> {
    let rows = rows_of(family, record);
    let mut names: Vec<&str> = rows.iter().map(|row| row.name).collect();
    names.sort_unstable();
    names.dedup();
    let of_sort = |name: &str| {
        let rows = rows.iter().filter(|row| row.name == name);
        rows.flat_map(|row| row.fields()).collect()
    };
    names.into_iter().map(of_sort).collect()
}

/// Some bytes of every sort of field: the first, the last and one between, of the first field that
/// stands there, the last, and one between.
pub fn telling_bytes(family: i64, record: Record) -> Vec<usize> {
    let mut bytes = Vec::new();
    for row in rows_of(family, record) {
        for field in [0, row.count / 2, row.count - 1] {
            let first = row.first + field * row.width;
            bytes.extend([0, row.width / 2, row.width - 1].map(|place| first + place));
        }
    }
    bytes.sort_unstable();
    bytes.dedup();
    bytes
}
