//! What a stream shows about a lister. A run in which something of this was never seen
//! has compared too little.

use crate::block::{Record, BLOCK_LENGTH, HUNDREDTH, UNIT};
use crate::family::USGS;
use crate::kept::blocks_of;
use crate::lister::Outcome;
use crate::meaning::{self, Block, Refusal, Sheet};
use crate::pointless;
use crate::record_a;
use crate::spots;

type OfSheets = (&'static str, fn(&Sheet) -> bool);

const LISTED: &[OfSheets] = &[
    ("listed, without record C", |s| !s.statistics_read),
    ("listed, with record C", |s| s.statistics_read),
    ("listed, 2048 profiles", |s| s.profiles.len() == 2048),
    ("listed, 2048 columns", |s| {
        s.header.columns().count() == 2048
    }),
    ("listed, fewer profiles", |s| {
        s.header.n < s.header.columns().count()
    }),
    ("listed, long profiles", |s| s.blocks > s.profiles.len() + 2),
    ("listed, z 1.00", |s| s.header.z_spacing == UNIT),
    ("listed, z 0.10", |s| s.header.z_spacing == UNIT / 10),
    ("listed, z 0.01", |s| s.header.z_spacing == HUNDREDTH),
    ("listed, nothing filled", |s| s.figures().filled == 0),
    ("listed, no voids", |s| {
        s.figures().filled == s.figures().posts
    }),
    ("listed, least below zero", |s| s.figures().least < 0),
    ("listed, greatest below zero", |s| s.figures().greatest < 0),
    ("listed, range from -0.xx", |s| {
        is_below_zero_by_less_than_one(s.figures().least)
    }),
    ("listed, range to -0.xx", |s| {
        is_below_zero_by_less_than_one(s.figures().greatest)
    }),
    ("listed, range to x.0x", |s| {
        s.figures().greatest.rem_euclid(100) < 10
    }),
];

fn is_below_zero_by_less_than_one(hundredths: i64) -> bool {
    (-99..0).contains(&hundredths)
}

/// The kinds a block may be refused with by the record awaited; 11 is counted by its byte.
const REFUSED: [(Record, &str, &[u32]); 4] = [
    (Record::Header, "record A", &[5, 6, 7, 8, 9, 10]),
    (Record::ProfileStart, "profile", &[5, 6, 7, 8, 9, 10]),
    (Record::ProfileRest, "further block", &[5, 6, 7]),
    (Record::Statistics, "record C", &[5, 6, 7, 9]),
];

const ENDS: [&str; 15] = [
    "empty input",
    "unfinished, block 0 alone",
    "unfinished in a profile",
    "unfinished between profiles",
    "unfinished before record C",
    "part of block 0",
    "part in a sheet",
    "part after the sheet",
    "refused 4 without record C",
    "refused 4 after record C",
    "refused 12, one column more",
    "refused 12, block 0 alone",
    "refused 12 before a fault",
    "refused, then more blocks",
    "just the cells lent",
];

const CLOSING: [u32; 4] = [97, 121, 739, 763];

/// The names of all that streams show.
pub fn names() -> Vec<String> {
    let mut names: Vec<String> = LISTED.iter().map(|&(name, _)| name.to_string()).collect();
    names.extend(ENDS.map(String::from));
    for (_, record, kinds) in REFUSED {
        names.extend(kinds.iter().map(|kind| refused_name(record, *kind)));
    }
    names.extend(CLOSING.map(closing_name));
    for record in [Record::Header, Record::ProfileStart] {
        names.extend(pointless::taken(USGS, record));
    }
    names.extend([7, 8, 10, 11].map(pointless_name));
    names.extend(spots::wanted_past_the_first(USGS, &Record::ALL));
    names
}

/// The real at the byte named has no point.
fn pointless_name(kind: u32) -> String {
    format!("no point, refused {kind}")
}

fn refused_name(record: &str, kind: u32) -> String {
    format!("{record}, refused {kind}")
}

fn closing_name(byte: u32) -> String {
    format!("refused 11 at byte {byte}")
}

/// The names of all that this stream shows a lister that lends `cells`.
pub fn shown(input: &[u8], cells: usize, outcome: &Outcome) -> Vec<String> {
    let blocks: Vec<Block> = input
        .chunks_exact(BLOCK_LENGTH)
        .map(<[u8]>::to_vec)
        .collect();
    match outcome {
        Outcome::Listed(sheet) => shown_by_sheet(sheet, &blocks, cells),
        Outcome::Unfinished(taken) => vec![shown_by_end(&blocks[..*taken])],
        Outcome::Refused(refusal) => shown_by_refusal(&blocks, cells, *refusal),
    }
}

fn shown_by_sheet(sheet: &Sheet, blocks: &[Block], cells: usize) -> Vec<String> {
    let held = LISTED.iter().filter(|(_, holds)| holds(sheet));
    let mut names: Vec<String> = held.map(|&(name, _)| name.to_string()).collect();
    if sheet.header.cells() == cells {
        names.push("just the cells lent".to_string());
    }
    names.extend(taken_without_point(Record::Header, &blocks[0]));
    let mut first = 1;
    for profile in &sheet.profiles {
        names.extend(taken_without_point(Record::ProfileStart, &blocks[first]));
        first += blocks_of(profile.length as i64) as usize;
    }
    names.sort_unstable();
    names.dedup();
    names
}

fn taken_without_point(record: Record, block: &Block) -> Vec<String> {
    pointless::shown(USGS, record, block, (0, 0))
}

/// Whether the real that a refusal names has no point.
fn refused_without_point(record: Record, block: &Block, refusal: Refusal) -> bool {
    let fault = (refusal.kind, refusal.byte);
    !pointless::shown(USGS, record, block, fault).is_empty()
}

/// What the blocks before a refusal, or before an end, mean; None if there are none.
fn sheet_of(blocks: &[Block]) -> Option<Sheet> {
    if blocks.is_empty() {
        return None;
    }
    Some(meaning::read(blocks).expect("these were all taken"))
}

fn shown_by_end(blocks: &[Block]) -> String {
    let awaited = sheet_of(blocks).and_then(|sheet| sheet.awaits());
    let name = match (blocks.len(), awaited) {
        (0, _) => "empty input",
        (1, _) => "unfinished, block 0 alone",
        (_, Some(Record::ProfileRest)) => "unfinished in a profile",
        (_, Some(Record::Statistics)) => "unfinished before record C",
        _ => "unfinished between profiles",
    };
    name.to_string()
}

fn shown_by_refusal(blocks: &[Block], cells: usize, refusal: Refusal) -> Vec<String> {
    if refusal.kind == 11 {
        return closing_names(blocks, refusal);
    }
    let number = refusal.block as usize;
    let before = sheet_of(&blocks[..number]);
    let awaited = match &before {
        None => Some(Record::Header),
        Some(sheet) => sheet.awaits(),
    };
    let mut names = Vec::new();
    if number + 1 < blocks.len() {
        names.push("refused, then more blocks".to_string());
    }
    match refusal.kind {
        1 => names.push(part_name(awaited).to_string()),
        4 => names.push(complete_name(before).to_string()),
        12 => names.extend(too_large_names(blocks, cells)),
        kind => names.extend(record_name(awaited, kind)),
    }
    let fault = (refusal.kind, refusal.byte);
    names.extend(awaited.and_then(|record| spots::shown(USGS, record, fault)));
    if let (Some(record), Some(block)) = (awaited, blocks.get(number)) {
        if refused_without_point(record, block, refusal) {
            names.push(pointless_name(refusal.kind));
        }
    }
    names
}

/// The block named is block 0 or a profile's first.
fn closing_names(blocks: &[Block], refusal: Refusal) -> Vec<String> {
    let record = match refusal.block {
        0 => Record::Header,
        _ => Record::ProfileStart,
    };
    let mut names = vec![closing_name(refusal.byte)];
    if refused_without_point(record, &blocks[refusal.block as usize], refusal) {
        names.push(pointless_name(refusal.kind));
    }
    names
}

fn part_name(awaited: Option<Record>) -> &'static str {
    match awaited {
        Some(Record::Header) => "part of block 0",
        Some(_) => "part in a sheet",
        None => "part after the sheet",
    }
}

fn complete_name(before: Option<Sheet>) -> &'static str {
    if before.is_some_and(|sheet| sheet.statistics_read) {
        "refused 4 after record C"
    } else {
        "refused 4 without record C"
    }
}

fn too_large_names(blocks: &[Block], cells: usize) -> Vec<String> {
    let header = record_a::check(&blocks[0]).expect("kind 12 comes after all others");
    let column = header.rows().count() as usize;
    let mut names = Vec::new();
    if header.cells() - column <= cells {
        names.push("refused 12, one column more");
    }
    if blocks.len() == 1 {
        names.push("refused 12, block 0 alone");
    }
    if meaning::read(blocks).is_err() {
        names.push("refused 12 before a fault");
    }
    names.into_iter().map(String::from).collect()
}

fn record_name(awaited: Option<Record>, kind: u32) -> Option<String> {
    let (_, record, _) = REFUSED.iter().find(|(of, _, _)| Some(*of) == awaited)?;
    Some(refused_name(record, kind))
}
