//! Sheets without points (02, request 4): the sample files, and that they mean what the same
//! sheets mean with them.

mod common;

use common::demand_the_papers_sheet;
use second::block::{put, stretch, Record, UNIT};
use second::dice::Dice;
use second::family::{CANADIAN, USGS};
use second::frames;
use second::kept::blocks_of;
use second::lister::{list, Outcome};
use second::meaning;
use second::number;
use second::old_tape;
use second::paper;
use second::pointless::{of_headers, shown};
use second::record_a::{check, check_of, Header};
use second::texts::spelling;

const TAKEN: &[u8] = include_bytes!("../../samples/C_TAKEN.DEM");

fn blocks_of_sheet(sheet: &[u8]) -> Vec<Vec<u8>> {
    sheet.chunks(1024).map(<[u8]>::to_vec).collect()
}

#[test]
fn the_sample_files_are_these_sheets() {
    let sample = include_bytes!("../../samples/NOPOINT.DEM");
    assert_eq!(sample[..], old_tape::sheet());
    let sample = include_bytes!("../../samples/C_NOPOINT.DEM");
    assert_eq!(sample[..], old_tape::canadian(TAKEN));
}

#[test]
fn the_papers_sheet() {
    let blocks = blocks_of_sheet(&old_tape::sheet());
    demand_the_papers_sheet(&blocks);
    assert_eq!(check(&blocks[0]), check(&paper::blocks()[0]));
    assert!(blocks.concat().iter().all(|&byte| byte != b'.'));
    let lines = list(&blocks.concat(), 6).output();
    assert_eq!(lines, list(&paper::sheet(), 6).output());
    let kept = include_str!("../../samples/NOPOINT.txt");
    assert_eq!(lines, kept);
    assert_eq!(kept, include_str!("../../samples/paper.txt"));
}

/// Cells, counts and lattice are those of C_TAKEN.DEM, but for its south-west corner.
#[test]
fn the_canadian_block() {
    let block = old_tape::canadian(TAKEN);
    let [with, without] = [TAKEN, &block].map(|block| check_of(CANADIAN, block).expect("taken"));
    let mut corners = with.corners;
    corners[0] += 3 * UNIT / 4;
    corners[1] += 3 * UNIT / 4;
    assert_eq!(without.corners, corners);
    assert_eq!(
        without,
        Header {
            corners,
            ..with.clone()
        }
    );
    assert_eq!(without.columns().start(), with.columns().start());
    assert_eq!(without.rows().start(), with.rows().start());
    let reals = [(116, 7), (129, 7), (547, 264), (817, 36)];
    for (first, length) in reals {
        assert!(!stretch(&block, first, first + length - 1).contains(&b'.'));
    }
    let line = frames::line_of(&block);
    assert_eq!(
        frames::press(CANADIAN, &line),
        include_str!("../../samples/C_NOPOINT.canadian.txt")
    );
    assert_eq!(frames::press(USGS, &line), "refused 5 0 1\nunfinished 0\n");
    assert_eq!(
        list(&block, 15_000).output(),
        include_str!("../../samples/C_NOPOINT.txt")
    );
}

/// What comparisons count: a zero tells nothing but in the angle, and of a refused block only the
/// real that is named.
#[test]
fn reals_that_comparisons_count() {
    let blocks = blocks_of_sheet(&old_tape::sheet());
    let taken = |record, block: &[u8]| shown(USGS, record, block, (0, 0));
    assert_eq!(taken(Record::Header, &blocks[0]).len(), 14);
    assert_eq!(taken(Record::ProfileStart, &blocks[1]).len(), 4);
    assert_eq!(taken(Record::ProfileStart, &blocks[2]).len(), 5);
    assert!(taken(Record::Header, &paper::blocks()[0]).is_empty());
    assert!(taken(Record::ProfileStart, &paper::blocks()[1]).is_empty());
    let block = old_tape::canadian(TAKEN);
    let names = shown(CANADIAN, Record::Header, &block, (0, 0));
    assert_eq!(names.len(), 16);
    assert_eq!(names[0], "Canadian, longitude's seconds, no point");
    assert_eq!(names[1], "Canadian, latitude's seconds, no point, exponent");
    assert!(names.iter().all(|name| of_headers(CANADIAN).contains(name)));
    for (first, text, name) in [
        (
            817,
            "          30",
            "x spacing, no point, refused 7 by its rule",
        ),
        (829, "        1D15", "y spacing, no point, refused 7"),
        (841, "        1D-4", "z spacing, no point, refused 8"),
        (
            787,
            "                     1D6",
            "angle, no point, refused 9",
        ),
        (
            547,
            "                   63D16",
            "SW x, no point, refused 10",
        ),
    ] {
        let mut block = blocks[0].clone();
        put(&mut block, first, text.as_bytes());
        let fault = check(&block).expect_err("refused");
        assert_eq!(shown(USGS, Record::Header, &block, fault), [name]);
        assert!(of_headers(USGS).contains(&name.to_string()));
    }
}

/// The field's value once more, without a point; None where no such text fits.
fn without_point(dice: &mut Dice, field: &[u8]) -> Option<Vec<u8>> {
    let (kind, value) = number::real(field).kind_and_value();
    assert_eq!(kind, number::FINE);
    let digits = value.unsigned_abs().to_string();
    let width = field.len();
    let sign = if value < 0 { "-" } else { "" };
    for _ in 0..20 {
        let round = digits.trim_end_matches('0').len().max(1);
        let kept = dice.size(round, digits.len());
        let power = (digits.len() - kept) as i64 - 9;
        let number = spelling::without_point(dice, &digits.as_bytes()[..kept], power, width);
        let text = [sign.as_bytes(), &number].concat();
        if text.len() <= width {
            let left = dice.size(0, width - text.len());
            let mut field = vec![b' '; width];
            put(&mut field, left + 1, &text);
            return Some(field);
        }
    }
    None
}

fn retype(dice: &mut Dice, block: &mut [u8], first: usize, width: usize) {
    let field = stretch(block, first, first + width - 1).to_vec();
    let text = without_point(dice, &field).expect("every real of a sheet has such a text");
    put(block, first, &text);
}

/// Every sample that is listed says the same, cell by cell, when no real of it has a point.
#[test]
fn outside_sheets_without_points() {
    let samples: [&[u8]; 6] = [
        include_bytes!("../../samples/UTM30.DEM"),
        include_bytes!("../../samples/VOIDS.DEM"),
        include_bytes!("../../samples/TALL.DEM"),
        include_bytes!("../../samples/DECI.DEM"),
        include_bytes!("../../samples/GEO3.DEM"),
        include_bytes!("../../samples/BIG.DEM"),
    ];
    let dice = &mut Dice::new(21);
    for sample in samples {
        let mut blocks = blocks_of_sheet(sample);
        let sheet = meaning::read(&blocks).expect("taken");
        assert!(sheet.complete());
        for place in 0..11 {
            retype(dice, &mut blocks[0], 547 + place * 24, 24);
        }
        for place in 0..3 {
            retype(dice, &mut blocks[0], 817 + place * 12, 12);
        }
        let mut first = 1;
        for profile in &sheet.profiles {
            for place in 0..5 {
                retype(dice, &mut blocks[first], 25 + place * 24, 24);
            }
            assert!(!stretch(&blocks[first], 1, 144).contains(&b'.'));
            first += blocks_of(profile.length as i64) as usize;
        }
        assert_eq!(first, blocks.len());
        assert!(!stretch(&blocks[0], 547, 852).contains(&b'.'));
        let Outcome::Listed(other) = list(&blocks.concat(), 20_000) else {
            panic!("not listed");
        };
        assert_eq!(other.header, sheet.header);
        assert_eq!(other.cells(), sheet.cells());
    }
}
