//! Record A, block 0: its fields in the order of their bytes, then the rules over the
//! whole record; and the two readings that ask nothing else of a block, origin and name. The
//! family is what the caller says it is: some blocks obey the rules of both (READINGS-02, 2.17).

use crate::block::{
    blank, demand, integer_within, real, real_form, stretch, Fault, BLOCK_LENGTH, HUNDREDTH,
    REAL_WIDTH, SPACING_WIDTH, UNIT,
};
use crate::corner_text::{angle, LATITUDE, LONGITUDE};
pub use crate::family::MOST;
use crate::family::{is_ground_spacing, rules_of, Rules, USGS};
use crate::kind::{
    CORNER_DISAGREES, OUT_OF_RANGE, UNSOUND, WRONG_CODE, WRONG_LENGTH, WRONG_PLACE, WRONG_TEXT,
};
use crate::lattice::Axis;

/// What a loader keeps of block 0 (READINGS 24), and the family it was read as. Reals are in
/// billionths.
#[derive(Clone, Debug, PartialEq)]
pub struct Header {
    pub family: i64,
    pub level: i64,
    pub system: i64,
    pub zone: i64,
    pub ground_unit: i64,
    pub vertical_unit: i64,
    /// SW, NW, NE, SE, each x then y.
    pub corners: [i64; 8],
    pub stated_least: i64,
    pub stated_greatest: i64,
    pub accuracy: i64,
    pub x_spacing: i64,
    pub y_spacing: i64,
    pub z_spacing: i64,
    pub n: i64,
}

/// The header of a USGS sheet, or the first fault as kind and byte.
pub fn check(block: &[u8]) -> Result<Header, Fault> {
    check_of(USGS, block)
}

/// The same for a family; one that nobody knows is told after the length (READINGS-02, 2.15).
pub fn check_of(family: i64, block: &[u8]) -> Result<Header, Fault> {
    demand(block.len() == BLOCK_LENGTH, WRONG_LENGTH, 0)?;
    let rules = rules_of(family).ok_or((UNSOUND, 0))?;
    let written_corner = read_front(block, family)?;
    let header = read_fields(block, family, rules)?;
    check_corner(&header, written_corner)?;
    check_whole_record(&header, rules)?;
    Ok(header)
}

/// The south-west corner, longitude and latitude, where it is written out in bytes 110 to 135.
type WrittenCorner = Option<[i64; 2]>;

/// Bytes 1 to 144.
fn read_front(block: &[u8], family: i64) -> Result<WrittenCorner, Fault> {
    match family {
        USGS => read_usgs_front(block),
        _ => read_canadian_front(block),
    }
}

fn read_usgs_front(block: &[u8]) -> Result<WrittenCorner, Fault> {
    check_text(block, 1, 144, is_upper_text)?;
    Ok(None)
}

/// Each named part is a stretch of its own, each number a field (READINGS-02, 2.3, 2.5).
fn read_canadian_front(block: &[u8]) -> Result<WrittenCorner, Fault> {
    // "The name (bytes 1-40) and producer (41-100) may have lower case."
    check_text(block, 1, 40, is_text)?;
    check_text(block, 41, 100, is_text)?;
    // "Bytes 101-109 and 137 are blank."
    blank(block, 101, 109)?;
    let corner = [angle(block, LONGITUDE)?, angle(block, LATITUDE)?];
    check_text(block, 136, 136, is_upper_text)?;
    blank(block, 137, 137)?;
    check_text(block, 138, 144, is_upper_text)?;
    Ok(Some(corner))
}

/// Bytes 145 to 1024, by the same table for both families.
fn read_fields(block: &[u8], family: i64, rules: &Rules) -> Result<Header, Fault> {
    let code = |first, permitted| integer_within(block, first, permitted, WRONG_CODE);
    let level = code(145, rules.levels.clone())?;
    code(151, 1..=1)?;
    let system = code(157, rules.systems.clone())?;
    let zone = code(163, (rules.zones)(system))?;
    check_projection_reals(block)?;
    let ground_unit = code(529, (rules.ground_units)(system))?;
    let vertical_unit = code(535, rules.vertical_units.clone())?;
    code(541, 4..=4)?;
    let corners = read_corners(block)?;
    let stated_least = real(block, 739, REAL_WIDTH)?;
    let stated_greatest = real(block, 763, REAL_WIDTH)?;
    let angle = real(block, 787, REAL_WIDTH)?;
    demand(angle == 0, WRONG_CODE, 787)?;
    let accuracy = code(811, rules.accuracies.clone())?;
    let x_spacing = read_ground_spacing(block, 817, rules)?;
    let y_spacing = read_ground_spacing(block, 829, rules)?;
    let z_spacing = read_height_spacing(block, 841, vertical_unit)?;
    code(853, 1..=1)?;
    let n = integer_within(block, 859, rules.profiles.clone(), OUT_OF_RANGE)?;
    check_text(block, 865, BLOCK_LENGTH, is_upper_text)?;
    Ok(Header {
        family,
        level,
        system,
        zone,
        ground_unit,
        vertical_unit,
        corners,
        stated_least,
        stated_greatest,
        accuracy,
        x_spacing,
        y_spacing,
        z_spacing,
        n,
    })
}

fn is_text(byte: &u8) -> bool {
    (32..=126).contains(byte)
}

fn is_upper_text(byte: &u8) -> bool {
    is_text(byte) && !byte.is_ascii_lowercase()
}

/// One stretch, whichever of its bytes is wrong (READINGS 10).
fn check_text(
    block: &[u8],
    first: usize,
    last: usize,
    permitted: fn(&u8) -> bool,
) -> Result<(), Fault> {
    let all_permitted = stretch(block, first, last).iter().all(permitted);
    demand(all_permitted, WRONG_TEXT, first)
}

/// The fifteen whose values do not count.
fn check_projection_reals(block: &[u8]) -> Result<(), Fault> {
    for first in (169..=505).step_by(REAL_WIDTH) {
        real_form(block, first, REAL_WIDTH)?;
    }
    Ok(())
}

fn read_corners(block: &[u8]) -> Result<[i64; 8], Fault> {
    let mut corners = [0; 8];
    for (place, corner) in corners.iter_mut().enumerate() {
        *corner = real(block, 547 + place * REAL_WIDTH, REAL_WIDTH)?;
    }
    Ok(corners)
}

/// Where spacings are listed in pairs there is no rule here: any real passes, zero and negative
/// ones too, up to the rules over the whole record.
fn read_ground_spacing(block: &[u8], first: usize, rules: &Rules) -> Result<i64, Fault> {
    let spacing = real(block, first, SPACING_WIDTH)?;
    let permitted = rules.pairs.is_some() || is_ground_spacing(spacing);
    demand(permitted, OUT_OF_RANGE, first)?;
    Ok(spacing)
}

/// The finest z spacing goes by the vertical unit (READINGS 12).
fn read_height_spacing(block: &[u8], first: usize, vertical_unit: i64) -> Result<i64, Fault> {
    let spacing = real(block, first, SPACING_WIDTH)?;
    let finest = if vertical_unit == 1 {
        10 * HUNDREDTH
    } else {
        HUNDREDTH
    };
    let permitted = spacing > 0 && spacing <= UNIT && spacing % finest == 0;
    demand(permitted, OUT_OF_RANGE, first)?;
    Ok(spacing)
}

/// "Ahead of the other whole-record rules": the corner in text must be that in numbers.
fn check_corner(header: &Header, written: WrittenCorner) -> Result<(), Fault> {
    let [x, y, ..] = header.corners;
    demand(
        written.is_none_or(|corner| corner == [x, y]),
        CORNER_DISAGREES,
        110,
    )
}

/// In the order 817 for a pair that is not listed, then 547, 817, 859 (READINGS 13; READINGS-02,
/// 2.10). No lattice is looked at before its spacings are known to be above zero.
fn check_whole_record(header: &Header, rules: &Rules) -> Result<(), Fault> {
    let spacings = rules.allow_spacings(header.x_spacing, header.y_spacing);
    demand(spacings, OUT_OF_RANGE, 817)?;
    let [sw_x, sw_y, nw_x, nw_y, ne_x, ne_y, se_x, se_y] = header.corners;
    let in_order = sw_x < se_x && nw_x < ne_x && sw_y < nw_y && se_y < ne_y;
    demand(in_order, WRONG_PLACE, 547)?;
    let (columns, rows) = (header.columns().count(), header.rows().count());
    let permitted = rules.sides.contains(&columns) && rules.sides.contains(&rows);
    demand(permitted, WRONG_PLACE, 817)?;
    demand(header.n <= columns, WRONG_PLACE, 859)
}

impl Header {
    /// Those it was read by.
    pub fn rules(&self) -> &'static Rules {
        rules_of(self.family).expect("a header is read by the rules of a family")
    }

    pub fn columns(&self) -> Axis {
        let [sw, _, nw, _, ne, _, se, _] = self.corners;
        axis_over([sw, nw, ne, se], self.x_spacing)
    }

    pub fn rows(&self) -> Axis {
        let [_, sw, _, nw, _, ne, _, se] = self.corners;
        axis_over([sw, nw, ne, se], self.y_spacing)
    }

    pub fn cells(&self) -> usize {
        (self.columns().count() * self.rows().count()) as usize
    }

    /// Hundredths of a unit in one step of a post; a z spacing is a whole number of them.
    pub fn step(&self) -> i64 {
        self.z_spacing / HUNDREDTH
    }
}

/// Least and greatest are over all four corners (READINGS 13).
fn axis_over(values: [i64; 4], spacing: i64) -> Axis {
    let [a, b, c, d] = values;
    Axis::between(a.min(b).min(c).min(d), a.max(b).max(c).max(d), spacing)
}

/// 1 to 6 for the known mapping centres, 0 for any other and for no block at all.
pub fn origin(block: &[u8]) -> u32 {
    origin_of(USGS, block)
}

/// The same for a family: 1 to 15 on Canadian sheets, 0 where nobody knows the family.
pub fn origin_of(family: i64, block: &[u8]) -> u32 {
    if block.len() != BLOCK_LENGTH {
        return 0;
    }
    rules_of(family).map_or(0, |rules| rules.origin(stretch(block, 141, 144)))
}

/// Columns and rows of a record A of this family; zeros where it is refused.
pub fn size_of(family: i64, block: &[u8]) -> [i64; 2] {
    let size = |header: Header| [header.columns().count(), header.rows().count()];
    check_of(family, block).map_or([0, 0], size)
}

/// How much of bytes 1 to 40 is the sheet's name; nothing is asked of its bytes (READINGS 35).
pub fn name_length(block: &[u8]) -> usize {
    if block.len() != BLOCK_LENGTH {
        return 0;
    }
    let last = stretch(block, 1, 40).iter().rposition(|&byte| byte != b' ');
    last.map_or(0, |place| place + 1)
}
