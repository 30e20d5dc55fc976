//! Reals without a point (02, request 4) where they stand in a record: which of them a block has,
//! and what came of them. A comparison that never met one of these has compared too little.

use crate::block::{stretch, Fault, Record, BLOCK_LENGTH, REAL_WIDTH, SPACING_WIDTH};
use crate::corner_text::{DEGREES_WIDTH, LATITUDE, LONGITUDE, MINUTES_WIDTH, SECONDS_WIDTH};
use crate::family::{CANADIAN, USGS};
use crate::kept::{self, Told, DONE};
use crate::kind::OUT_OF_RANGE;
use crate::number;

/// A real whose value counts: its first byte, its width and its name.
#[derive(Clone, Copy)]
struct Place {
    first: usize,
    width: usize,
    name: &'static str,
}

const fn wide(first: usize, name: &'static str) -> Place {
    Place {
        first,
        width: REAL_WIDTH,
        name,
    }
}

const fn spacing(first: usize, name: &'static str) -> Place {
    Place {
        first,
        width: SPACING_WIDTH,
        name,
    }
}

const fn seconds(angle: usize, name: &'static str) -> Place {
    Place {
        first: angle + DEGREES_WIDTH + MINUTES_WIDTH,
        width: SECONDS_WIDTH,
        name,
    }
}

const OF_A_CORNER_TEXT: [Place; 2] = [
    seconds(LONGITUDE, "longitude's seconds"),
    seconds(LATITUDE, "latitude's seconds"),
];

const OF_A_HEADER: [Place; 14] = [
    wide(547, "SW x"),
    wide(571, "SW y"),
    wide(595, "NW x"),
    wide(619, "NW y"),
    wide(643, "NE x"),
    wide(667, "NE y"),
    wide(691, "SE x"),
    wide(715, "SE y"),
    wide(739, "sheet's least"),
    wide(763, "sheet's greatest"),
    wide(787, ANGLE),
    spacing(817, "x spacing"),
    spacing(829, "y spacing"),
    spacing(841, "z spacing"),
];

const OF_A_PROFILE: [Place; 5] = [
    wide(25, "x"),
    wide(49, "y"),
    wide(73, "datum"),
    wide(97, "least"),
    wide(121, "greatest"),
];

/// The one real that is zero on every sheet.
const ANGLE: &str = "angle";

fn places_of(family: i64, record: Record) -> Vec<Place> {
    match record {
        Record::Header if family == CANADIAN => [&OF_A_CORNER_TEXT[..], &OF_A_HEADER].concat(),
        Record::Header => OF_A_HEADER.to_vec(),
        Record::ProfileStart => OF_A_PROFILE.to_vec(),
        Record::ProfileRest | Record::Statistics => Vec::new(),
    }
}

impl Place {
    fn field<'a>(&self, block: &'a [u8]) -> &'a [u8] {
        stretch(block, self.first, self.first + self.width - 1)
    }

    /// In a field of right form a point stands nowhere but in the number.
    fn has_no_point(&self, block: &[u8]) -> bool {
        !self.field(block).contains(&b'.')
    }

    /// A zero is zero wherever its point is.
    fn tells(&self, block: &[u8]) -> bool {
        self.name == ANGLE || number::real(self.field(block)).value != 0
    }

    fn taken_name(&self, family: i64, exponent: bool) -> String {
        let word = if exponent { ", exponent" } else { "" };
        format!("{}{}, no point{word}", of(family), self.name)
    }

    fn refused_name(&self, family: i64, kind: u32, by_rule: bool) -> String {
        let word = if by_rule { " by its rule" } else { "" };
        format!(
            "{}{}, no point, refused {kind}{word}",
            of(family),
            self.name
        )
    }
}

fn of(family: i64) -> &'static str {
    match family {
        CANADIAN => "Canadian, ",
        _ => "",
    }
}

/// What a block of this record shows that was taken, kind 0, or refused with this fault.
pub fn shown(family: i64, record: Record, block: &[u8], (kind, byte): Fault) -> Vec<String> {
    let mut names = Vec::new();
    for place in places_of(family, record) {
        if !place.has_no_point(block) {
            continue;
        }
        let field = place.field(block);
        if kind == DONE && place.tells(block) {
            let exponent = field.iter().any(|byte| b"DE".contains(byte));
            names.push(place.taken_name(family, exponent));
        }
        if kind != DONE && place.first == byte as usize {
            let by_rule = kind == OUT_OF_RANGE && number::real(field).kind == number::FINE;
            names.push(place.refused_name(family, kind, by_rule));
        }
    }
    names
}

/// What a delivery shows to a session that these were the numbers of.
pub fn shown_by_delivery(numbers: &[i64], number: u32, block: &[u8], told: Told) -> Vec<String> {
    let Some(kept) = kept::sound(numbers) else {
        return Vec::new();
    };
    let looked_at = i64::from(number) == kept.taken && block.len() == BLOCK_LENGTH;
    // A closing rule may name a block that was taken before.
    let of_this_block = told.result == DONE || told.block == number;
    match kept.awaits() {
        Some(record) if looked_at && of_this_block => {
            let fault = (told.result, told.byte);
            shown(kept.header.family, record, block, fault)
        }
        _ => Vec::new(),
    }
}

/// All that records A of a family must have shown.
pub fn of_headers(family: i64) -> Vec<String> {
    let mut names = taken(family, Record::Header);
    names.extend(refused_headers(family));
    names
}

/// All that sheets of a family must have shown: every real of theirs taken, those of a profile
/// refused too.
pub fn of_sheets(family: i64) -> Vec<String> {
    let mut names = taken(family, Record::Header);
    names.extend(taken(family, Record::ProfileStart));
    names.extend(refused_profiles(family));
    names
}

/// Every real of a record, taken without a point, with an exponent and without one.
pub fn taken(family: i64, record: Record) -> Vec<String> {
    let places = places_of(family, record).into_iter();
    places
        .flat_map(|place| [false, true].map(|exponent| place.taken_name(family, exponent)))
        .collect()
}

/// Every real of a record A, refused without a point for its size or its fineness, and each rule
/// behind the reading that can name one.
fn refused_headers(family: i64) -> Vec<String> {
    let mut names = refused_readings(family, Record::Header);
    let mut rules = vec![("SW x", 10), (ANGLE, 9), ("x spacing", 10)];
    rules.extend([("x spacing", 7), ("z spacing", 7)]);
    match family {
        // The list of pairs stands in the place of y's own rule.
        CANADIAN => rules.extend(OF_A_CORNER_TEXT.map(|place| (place.name, 7))),
        _ => rules.push(("y spacing", 7)),
    }
    names.extend(refused_by_rules(family, Record::Header, &rules));
    names
}

/// The same of a profile's first block, its places and its closing.
fn refused_profiles(family: i64) -> Vec<String> {
    let rules = [
        ("x", 10),
        ("y", 10),
        ("datum", 7),
        ("least", 11),
        ("greatest", 11),
    ];
    let mut names = refused_readings(family, Record::ProfileStart);
    // A Canadian profile is closed by its eighth block.
    let told_of_its_own = if family == USGS { 5 } else { 3 };
    names.extend(refused_by_rules(
        family,
        Record::ProfileStart,
        &rules[..told_of_its_own],
    ));
    names
}

fn refused_readings(family: i64, record: Record) -> Vec<String> {
    let places = places_of(family, record).into_iter();
    places
        .flat_map(|place| [7, 8].map(|kind| place.refused_name(family, kind, false)))
        .collect()
}

fn refused_by_rules(family: i64, record: Record, rules: &[(&str, u32)]) -> Vec<String> {
    let mut names = Vec::new();
    for place in places_of(family, record) {
        for &(_, kind) in rules.iter().filter(|(name, _)| *name == place.name) {
            names.push(place.refused_name(family, kind, kind == OUT_OF_RANGE));
        }
    }
    names
}
