//! The families of sheets (02, request 2): USGS sheets as in document 01, Canadian ones (CDED
//! level 1, document 003) as the request narrows them. What a rule allows is data here; how bytes
//! 1 to 144 are divided stands in record_a.rs, the corner written there in corner_text.rs.

use crate::block::{HUNDREDTH, UNIT};
use std::ops::RangeInclusive;

/// By number, since a caller may name a family that nobody knows (READINGS-02, 2.1).
pub const USGS: i64 = 0;
pub const CANADIAN: i64 = 1;

/// "Each sheet is 1201 profiles of 1201 posts, every one on a full lattice."
pub const CANADIAN_SIDE: i64 = 1201;

/// Spacings in latitude and in longitude, in billionths of an arc-second.
pub type Pair = (i64, i64);

/// "Spacing in arc-seconds, latitude then longitude: 0.75 with 0.75, 1.5 or 3; 3 with 3, 6 or
/// 12." Latitude is y, longitude x (READINGS-02, 2.9).
pub const PAIRS: [Pair; 6] = [
    (75 * HUNDREDTH, 75 * HUNDREDTH),
    (75 * HUNDREDTH, 150 * HUNDREDTH),
    (75 * HUNDREDTH, 3 * UNIT),
    (3 * UNIT, 3 * UNIT),
    (3 * UNIT, 6 * UNIT),
    (3 * UNIT, 12 * UNIT),
];

const USGS_ORIGINS: [&[u8; 4]; 6] = [b"MAC ", b"GPM2", b"MCMC", b"RMMC", b"WMC ", b"FS  "];

/// "1 to 15 in 003's order from NTDB to MULT": Alberta stands after Prince Edward Island.
const CANADIAN_ORIGINS: [&[u8; 4]; 15] = [
    b"NTDB", b"BC  ", b"MB  ", b"NB  ", b"NL  ", b"NS  ", b"NT  ", b"NU  ", b"ON  ", b"PE  ",
    b"AB  ", b"QC  ", b"SK  ", b"YT  ", b"MULT",
];

/// What the fields of a family's records may hold.
pub struct Rules {
    pub levels: RangeInclusive<i64>,
    pub systems: RangeInclusive<i64>,
    /// Those that go with a system.
    pub zones: fn(i64) -> RangeInclusive<i64>,
    pub ground_units: fn(i64) -> RangeInclusive<i64>,
    pub vertical_units: RangeInclusive<i64>,
    pub accuracies: RangeInclusive<i64>,
    /// n of record A, and m of a profile.
    pub profiles: RangeInclusive<i64>,
    pub posts: RangeInclusive<i64>,
    /// Columns of the lattice, and rows.
    pub sides: RangeInclusive<i64>,
    /// None where x and y each have 01's rule of their own.
    pub pairs: Option<&'static [Pair]>,
    pub origins: &'static [&'static [u8; 4]],
}

/// Most columns, most rows, most profiles and most posts of a profile (01).
pub const MOST: i64 = 2048;

static OF_USGS: Rules = Rules {
    levels: 1..=3,
    systems: 0..=2,
    zones: zones_of,
    ground_units: ground_units_of,
    vertical_units: 1..=2,
    accuracies: 0..=1,
    profiles: 1..=MOST,
    posts: 1..=MOST,
    sides: 1..=MOST,
    pairs: None,
    origins: &USGS_ORIGINS,
};

static OF_CANADIAN: Rules = Rules {
    levels: 1..=1,
    systems: 0..=0,
    zones: |_| 0..=0,
    ground_units: |_| 3..=3,
    vertical_units: 2..=2,
    accuracies: 0..=0,
    profiles: CANADIAN_SIDE..=CANADIAN_SIDE,
    posts: CANADIAN_SIDE..=CANADIAN_SIDE,
    sides: CANADIAN_SIDE..=CANADIAN_SIDE,
    pairs: Some(&PAIRS),
    origins: &CANADIAN_ORIGINS,
};

/// None for a family that nobody knows.
pub fn rules_of(family: i64) -> Option<&'static Rules> {
    match family {
        USGS => Some(&OF_USGS),
        CANADIAN => Some(&OF_CANADIAN),
        _ => None,
    }
}

pub fn is_known(family: i64) -> bool {
    rules_of(family).is_some()
}

fn zones_of(system: i64) -> RangeInclusive<i64> {
    match system {
        0 => 0..=0,
        1 => 1..=60,
        _ => 1..=9999,
    }
}

fn ground_units_of(system: i64) -> RangeInclusive<i64> {
    match system {
        0 => 3..=3,
        1 => 2..=2,
        _ => 1..=2,
    }
}

impl Rules {
    /// Whether these spacings may stand together; each family has its own way to say so.
    pub fn allow_spacings(&self, x: i64, y: i64) -> bool {
        match self.pairs {
            None => is_ground_spacing(x) && is_ground_spacing(y),
            Some(pairs) => pairs.contains(&(y, x)),
        }
    }

    /// 1 for the first of the family's origins; 0 for any other text.
    pub fn origin(&self, code: &[u8]) -> u32 {
        let place = self.origins.iter().position(|&known| code == known);
        place.map_or(0, |place| place as u32 + 1)
    }
}

/// "x, y whole, 1-9999" (01).
pub fn is_ground_spacing(spacing: i64) -> bool {
    spacing % UNIT == 0 && (UNIT..=9999 * UNIT).contains(&spacing)
}
