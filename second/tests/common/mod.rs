//! What the tests share: the sheet of document 01, "The lister, and one sheet", typed out
//! field by field, a sheet of one long column, sessions that have taken blocks, and how
//! families of inputs are tested.

#![allow(dead_code)]

use second::kept::{self, Told, DONE, NAMES, NUMBERS};
use second::load::{deliver, Answer, Session};
use second::meaning::Figures;
use second::turns::{Family, Made, ALL_SHARES};
use std::collections::BTreeSet;
use std::fmt::Debug;

pub const VOID: i32 = i32::MIN;
pub const PAPER_CELLS: [i32; 6] = [1000, VOID, 1200, VOID, 1100, 900];

/// Posts of a profile, and the blocks it then takes: 146 posts in the first and 170 in each
/// further one.
pub const PROFILES: [(usize, usize); 9] = [
    (1, 1),
    (146, 1),
    (147, 2),
    (316, 2),
    (317, 3),
    (486, 3),
    (487, 4),
    (1201, 8),
    (2048, 13),
];

pub fn put(block: &mut [u8], first: usize, text: &str) {
    block[first - 1..first - 1 + text.len()].copy_from_slice(text.as_bytes());
}

/// A block with these texts at these bytes and blanks everywhere else.
pub fn block_of(fields: &[(usize, &str)]) -> Vec<u8> {
    let mut block = vec![b' '; 1024];
    for &(first, text) in fields {
        put(&mut block, first, text);
    }
    block
}

pub fn paper_header() -> Vec<u8> {
    let mut block = block_of(&[
        (1, "A SHEET OF TWO PROFILES"),
        (141, "WMC "),
        (145, "     1     1     1    17"),
        (529, "     2     2     4"),
        (739, "   0.900000000000000D+01   0.120000000000000D+02"),
        (787, "   0.000000000000000D+00     0"),
        (817, "0.300000E+020.300000E+020.100000E+01"),
        (853, "     1     2"),
    ]);
    for place in 0..15 {
        put(&mut block, 169 + place * 24, "0.0");
    }
    let corners = [600, 900, 600, 960, 630, 960, 630, 900];
    for (place, corner) in corners.iter().enumerate() {
        let text = format!("   0.{corner}000000000000D+03");
        put(&mut block, 547 + place * 24, &text);
    }
    block
}

pub fn paper_profiles() -> [Vec<u8>; 2] {
    [
        block_of(&[
            (1, "     1     1     3     1"),
            (25, "600.0"),
            (49, "900.0"),
            (73, "0.0"),
            (97, "10.0"),
            (121, "12.0"),
            (145, "    10-32767    12"),
        ]),
        block_of(&[
            (1, "     1     2     2     1"),
            (25, "                   630.0"),
            (49, "                   930.0"),
            (73, "                     0.0"),
            (97, "   0.900000000000000D+01"),
            (121, "   0.110000000000000D+02"),
            (145, "    11     9"),
        ]),
    ]
}

pub fn paper_blocks() -> Vec<Vec<u8>> {
    let [first, second] = paper_profiles();
    vec![paper_header(), first, second]
}

/// Billionths as a text with nine decimals, in a real field of 24 bytes.
pub fn real(billionths: i64) -> String {
    let sign = if billionths < 0 { "-" } else { "" };
    let size = billionths.unsigned_abs();
    let text = format!("{sign}{}.{:09}", size / 1_000_000_000, size % 1_000_000_000);
    format!("{text:24}")
}

/// A Canadian record A whose south-west corner is `x`, `y`, on a full lattice of these spacings;
/// `written` is the corner in bytes 110 to 135. All numbers are billionths.
pub fn canadian_header(written: &str, [x, y]: [i64; 2], [xs, ys]: [i64; 2]) -> Vec<u8> {
    assert_eq!(written.len(), 26);
    let mut block = block_of(&[
        (1, "031g05_0100_demw"),
        (41, "Natural Resources Canada"),
        (110, written),
        (136, "8"),
        (141, "NTDB"),
        (145, "     1     1     0     0"),
        (529, "     3     2     4"),
        (739, &real(0)),
        (763, &real(0)),
        (787, &real(0)),
        (811, "     0"),
        (817, &real(xs)[..12]),
        (829, &real(ys)[..12]),
        (841, "         1.0"),
        (853, "     1  1201"),
    ]);
    for place in 0..15 {
        put(&mut block, 169 + place * 24, "0.0");
    }
    // The 1201st multiple from the least that is not below the corner.
    let last = |corner: i64, spacing: i64| (1200 - (-corner).div_euclid(spacing)) * spacing;
    let (east, north) = (last(x, xs), last(y, ys));
    let corners = [x, y, x, north, east, north, east, y];
    for (place, corner) in corners.into_iter().enumerate() {
        put(&mut block, 547 + place * 24, &real(corner));
    }
    block
}

/// Ottawa's: 75°30' west, 45° north, 0.75 seconds either way; written as GDAL writes it.
pub fn ottawa() -> Vec<u8> {
    let unit = 1_000_000_000;
    canadian_header(
        " -7530 0.0000  45 0 0.0000",
        [-271_800 * unit, 162_000 * unit],
        [unit * 3 / 4; 2],
    )
}

/// A profile of Ottawa's sheet, counted from 0, in its eight blocks; the datum is 0, extremes are
/// whole metres.
pub fn ottawa_profile(place: i64, posts: &[i64], extremes: (i64, i64)) -> Vec<Vec<u8>> {
    let unit = 1_000_000_000;
    let x = -271_800 * unit + place * (unit * 3 / 4);
    let mut blocks = column_blocks(posts, 0, extremes.0 * 100, extremes.1 * 100);
    put(&mut blocks[0], 7, &format!("{:6}", place + 1));
    put(&mut blocks[0], 25, &real(x));
    put(&mut blocks[0], 49, &real(162_000 * unit));
    blocks
}

/// Hundredths as a text with two decimals, in a real field of 24 bytes.
fn units(hundredths: i64) -> String {
    let sign = if hundredths < 0 { "-" } else { "" };
    let size = hundredths.abs();
    format!("{:24}", format!("{sign}{}.{:02}", size / 100, size % 100))
}

/// A record A of one column of 2048 rows, with these extremes in hundredths; z spacing 1.
pub fn column_header(least: i64, greatest: i64) -> Vec<u8> {
    let mut header = paper_header();
    for (place, corner) in [0, 0, 0, 2047, 1, 2047, 1, 0].iter().enumerate() {
        put(&mut header, 547 + place * 24, &units(corner * 100));
    }
    put(&mut header, 739, &units(least));
    put(&mut header, 763, &units(greatest));
    put(&mut header, 829, "         1.0");
    put(&mut header, 859, "     1");
    header
}

/// The blocks of its profile: 146 posts in the first, 170 in each further one. Datum and
/// extremes are in hundredths.
pub fn column_blocks(posts: &[i64], datum: i64, least: i64, greatest: i64) -> Vec<Vec<u8>> {
    let mut blocks = vec![block_of(&[
        (1, "     1     1"),
        (13, &format!("{:6}     1", posts.len())),
        (25, &units(0)),
        (49, &units(0)),
        (73, &units(datum)),
        (97, &units(least)),
        (121, &units(greatest)),
    ])];
    let mut byte = 145;
    for post in posts {
        if byte == 1021 {
            blocks.push(vec![b' '; 1024]);
            byte = 1;
        }
        let block = blocks.last_mut().expect("never empty");
        put(block, byte, &format!("{post:6}"));
        byte += 6;
    }
    blocks
}

/// A profile of 200 posts, the numbers from 1 on, with a datum of 2.50.
pub fn two_hundred_posts() -> Vec<Vec<u8>> {
    let posts: Vec<i64> = (1..=200).collect();
    let mut blocks = vec![column_header(350, 20_250)];
    blocks.extend(column_blocks(&posts, 250, 350, 20_250));
    blocks
}

/// A profile of 2048 posts, all of them this one; the datum is in hundredths.
pub fn level_column(post: i64, datum: i64) -> Vec<Vec<u8>> {
    let height = post * 100 + datum;
    let mut blocks = vec![column_header(height, height)];
    blocks.extend(column_blocks(&[post; 2048], datum, height, height));
    blocks
}

/// The paper's sheet with a record C to come, up to and without that record.
pub fn blocks_before_statistics() -> Vec<Vec<u8>> {
    let mut blocks = paper_blocks();
    put(&mut blocks[0], 811, "     1");
    blocks
}

pub fn statistics(numbers: [i64; 10]) -> Vec<u8> {
    let mut block = vec![b' '; 1024];
    for (place, number) in numbers.iter().enumerate() {
        put(&mut block, 1 + place * 6, &format!("{number:6}"));
    }
    block
}

/// A fresh session that has taken these blocks, and its grid of `room` sevens.
pub fn after(blocks: &[impl AsRef<[u8]>], room: usize) -> (Session, Vec<i32>) {
    let (mut session, mut grid) = (Session::fresh(), vec![7; room]);
    for (number, block) in blocks.iter().enumerate() {
        let answer = deliver(&mut session, number as u32, block.as_ref(), &mut grid);
        assert_eq!(answer, Answer::Taken, "block {number}");
    }
    (session, grid)
}

/// The same for a session kept as numbers.
pub fn numbers_after(blocks: &[Vec<u8>], room: usize) -> (Vec<i64>, Vec<i32>) {
    let (mut numbers, mut grid) = (vec![0; NUMBERS], vec![7; room]);
    for (number, block) in blocks.iter().enumerate() {
        let answer = kept::deliver(&mut numbers, number as u32, block, &mut grid);
        assert_eq!(answer, told(DONE, 0, 0), "block {number}");
    }
    (numbers, grid)
}

pub fn told(result: u32, block: u32, byte: u32) -> Told {
    Told {
        result,
        block,
        byte,
    }
}

/// The place of a number by its name.
pub fn place(name: &str) -> usize {
    let found = NAMES.iter().position(|&known| known == name);
    found.expect("a number of a session")
}

pub fn with(numbers: &[i64], changes: &[(&str, i64)]) -> Vec<i64> {
    let mut changed = numbers.to_vec();
    for &(name, value) in changes {
        changed[place(name)] = value;
    }
    changed
}

/// The cells and counts that the paper gives for its sheet; no cell past it is touched.
pub fn demand_the_papers_sheet(blocks: &[Vec<u8>]) {
    let (session, grid) = after(blocks, 8);
    assert_eq!(grid[..6], PAPER_CELLS);
    assert_eq!(grid[6..], [7, 7]);
    let figures = Figures {
        closed: 2,
        posts: 5,
        filled: 4,
        least: 900,
        greatest: 1200,
        sum: 4200,
    };
    assert_eq!(session.figures(), figures);
    assert_eq!(session.taken(), 3);
    assert!(session.sheet().expect("taken").complete());
}

/// One input for each share: made again it is the same, and no family is left out.
pub fn demand_the_same_again<Maker>(families: &[Family<Maker>], make: impl Fn(usize) -> Made) {
    let mut met = BTreeSet::new();
    for number in 0..ALL_SHARES {
        let made = make(number);
        assert!(made.bytes == make(number).bytes);
        met.insert(made.family);
    }
    assert_eq!(met.len(), families.len());
    let shares: usize = families.iter().map(|family| family.share).sum();
    assert_eq!(shares, ALL_SHARES);
}

pub fn demand_all_seen<Name: Ord + Debug>(names: Vec<Name>, seen: &BTreeSet<Name>) {
    let missing: Vec<_> = names.iter().filter(|name| !seen.contains(name)).collect();
    assert!(missing.is_empty(), "{missing:?}");
}
