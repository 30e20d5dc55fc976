//! Canadian sheets (02, request 2): a case for each reading 2.1 to 2.19 that can be one, and one
//! for each slip, with answers worked out by hand from the papers.

mod common;

use common::{
    canadian_header, demand_all_seen, ottawa, ottawa_profile, paper_blocks, put, real, told, with,
    VOID,
};
use second::block::UNIT;
use second::desk::OfFamily;
use second::dice::Dice;
use second::family::{CANADIAN, USGS};
use second::frames;
use second::headers::canadian as inputs;
use second::kept::clauses::{broken, FAMILY, NEGATIVE};
use second::kept::{deliver, place, sound, Kept, Told, DONE, HELD, NUMBERS};
use second::lister::list;
use second::load::{self, Session};
use second::meaning::{self, sum_of_cells};
use second::north::North;
use second::presses;
use second::record_a::{self, check, check_of, name_length, origin, origin_of, size_of};
use second::sheets::canadian::{self, CELLS};
use std::collections::BTreeSet;

const NONE: [&str; 0] = [];
const QUARTER: i64 = UNIT / 4;

fn fault(block: &[u8]) -> (u32, u32) {
    check_of(CANADIAN, block).err().unwrap_or((0, 0))
}

/// Byte, text put there on Ottawa's header, kind and byte of the fault; (0, 0) where there is none.
type Row<'a> = (usize, &'a str, (u32, u32));

fn check_rows(rows: &[Row]) {
    for &(first, text, expected) in rows {
        let mut block = ottawa();
        put(&mut block, first, text);
        assert_eq!(fault(&block), expected, "\"{text}\" at {first}");
    }
}

/// A header that says this of its longitude, and has its corner there; latitude is 45 degrees.
fn at_longitude(written: &str, x: i64) -> Vec<u8> {
    let both = format!("{written}  45 0 0.0000");
    canadian_header(&both, [x, 162_000 * UNIT], [3 * QUARTER; 2])
}

fn at_latitude(written: &str, y: i64) -> Vec<u8> {
    let both = format!(" -7530 0.0000{written}");
    canadian_header(&both, [-271_800 * UNIT, y], [3 * QUARTER; 2])
}

#[test]
fn ottawas_header() {
    let header = check_of(CANADIAN, &ottawa()).expect("valid");
    assert_eq!((header.family, header.level, header.system), (1, 1, 0));
    assert_eq!((header.zone, header.ground_unit), (0, 3));
    assert_eq!((header.vertical_unit, header.accuracy), (2, 0));
    assert_eq!(
        (header.x_spacing, header.y_spacing),
        (3 * QUARTER, 3 * QUARTER)
    );
    assert_eq!(
        (header.columns().count(), header.rows().count()),
        (1201, 1201)
    );
    assert_eq!(header.columns().start(), -271_800 * UNIT);
    assert_eq!(header.columns().end(), -270_900 * UNIT);
    assert_eq!(header.rows().end(), 162_900 * UNIT);
    assert_eq!((header.n, header.cells()), (1201, 1_442_401));
}

/// 2.1, 2.15: by number, and a number that is no family's is told after the length.
#[test]
fn families_by_number() {
    let block = ottawa();
    assert_eq!(fault(&block), (0, 0));
    // The name has lower case, so as a USGS sheet it is no text.
    assert_eq!(check(&block), Err((5, 1)));
    for unknown in [2, 3, 255, 256, u32::MAX] {
        let found = OfFamily::of(unknown, &block);
        assert_eq!(
            (found.kind, found.byte, found.origin, found.size),
            (2, 0, 0, [0, 0])
        );
        let found = OfFamily::of(unknown, &block[1..]);
        assert_eq!(
            (found.kind, found.byte, found.origin, found.size),
            (1, 0, 0, [0, 0])
        );
    }
    let found = OfFamily::of(1, &block);
    assert_eq!((found.kind, found.origin, found.size), (0, 1, [1201, 1201]));
    for length in [0, 109, 144, 1023, 1025] {
        let mut other = block.clone();
        other.resize(length, b' ');
        let found = OfFamily::of(1, &other);
        assert_eq!(
            (found.kind, found.byte, found.origin, found.size),
            (1, 0, 0, [0, 0])
        );
    }
}

/// 2.2: every number opens, all else zero; an unknown one is met at the delivery, after the
/// length and before held.
#[test]
fn opening() {
    let block = ottawa();
    for family in [0, 1, 2, 255, i64::from(u32::MAX)] {
        let numbers = Kept::opened(family).numbers();
        assert_eq!(numbers[..38], [0; 38]);
        assert_eq!(numbers[38], family);
        assert_eq!(broken(&numbers).is_empty(), family < 2);
    }
    for family in [2, 255, 1 << 32, (1 << 32) + 1, i64::MAX] {
        for number in [0, 7] {
            let mut numbers = Kept::opened(family).numbers();
            let answer = deliver(&mut numbers, number, &block, &mut []);
            assert_eq!(
                (answer, numbers),
                (told(2, number, 0), Kept::opened(family).numbers())
            );
            let answer = deliver(&mut numbers, number, &block[1..], &mut []);
            assert_eq!(answer, told(1, number, 0));
            let mut session = Session::opened(family);
            let answer = load::deliver(&mut session, number, &block, &mut []);
            assert_eq!(presses::told(answer), told(2, number, 0));
            let answer = load::deliver(&mut session, number, &block[1..], &mut []);
            assert_eq!(presses::told(answer), told(1, number, 0));
        }
    }
    let (begun, mut grid) = after(&[ottawa()]);
    let mut unknown = with(&begun, &[("family", 2)]);
    assert_eq!(deliver(&mut unknown, 0, &block, &mut grid), told(2, 0, 0));
}

/// 2.3, 2.4: seven stretches, each at its first byte.
#[test]
fn stretches() {
    check_rows(&[
        (1, "\x1F", (5, 1)),
        (40, "\x7F", (5, 1)),
        (41, "\t", (5, 41)),
        (100, "\x7F", (5, 41)),
        (1, "abcdefghijklmnopqrstuvwxyz ~!{|}`", (0, 0)),
        (90, "lower case~", (0, 0)),
        (101, "0", (5, 101)),
        (109, "A", (5, 101)),
        (105, "\0", (5, 101)),
        (136, "a", (5, 136)),
        (136, "\x7F", (5, 136)),
        (136, " ", (0, 0)),
        (136, "Z", (0, 0)),
        (137, "8", (5, 137)),
        (138, "a", (5, 138)),
        (141, "ntdb", (5, 138)),
        (144, "b", (5, 138)),
        (138, "ABC", (0, 0)),
        (865, "b", (5, 865)),
        (1024, "\n", (5, 865)),
        (865, "0 1 4", (0, 0)),
    ]);
    for (byte, expected) in [(1, 1), (40, 1), (41, 41), (100, 41), (101, 101), (136, 136)] {
        for wrong in [233, 128, 255, 0, 10] {
            let mut block = ottawa();
            block[byte - 1] = wrong;
            assert_eq!(fault(&block), (5, expected));
        }
    }
    for (byte, expected) in [(137, 137), (138, 138), (144, 138), (865, 865), (1024, 865)] {
        let mut block = ottawa();
        block[byte - 1] = 233;
        assert_eq!(fault(&block), (5, expected));
    }
}

/// 2.5: six number fields, not text: a stray letter in them is of wrong form. Where it stands is
/// counted from the front by 6.2, 6.4: a blank behind the digits of degrees or minutes, or behind
/// a sign; the last byte of a blank field, 113 for the degrees ("Across the requests", 2 + 6); any
/// byte that no number has.
#[test]
fn corner_fields() {
    check_rows(&[
        (110, "-75 ", (6, 113)),
        (110, "    ", (6, 113)),
        (113, "a", (6, 113)),
        (113, "A", (6, 113)),
        (110, "- 75", (6, 111)),
        (110, "x", (6, 110)),
        (111, "+", (15, 110)),
        (112, "-", (6, 112)),
        (114, "  ", (6, 115)),
        (114, "3 ", (6, 115)),
        (114, "x", (6, 114)),
        (115, "x", (6, 115)),
        (116, "       ", (6, 122)),
        (116, "0.0000e", (6, 122)),
        (116, "0.0e0  ", (6, 119)),
        (116, "0.0 0  ", (6, 120)),
        (116, "1.D+   ", (6, 120)),
        (122, "a", (6, 122)),
        (123, "45  ", (6, 125)),
        (123, "    ", (6, 126)),
        (127, "- ", (6, 128)),
        (127, "  ", (6, 128)),
        (129, "0,0000 ", (6, 130)),
        (129, "       ", (6, 135)),
        // Within a field: form, then the reading's own 7 and 8, then the range.
        (116, "1.D-10 ", (8, 116)),
        (116, ".5D-9  ", (8, 116)),
        (116, "1.D+9  ", (7, 116)),
        (129, "1D-99  ", (8, 129)),
        (129, "1D99   ", (7, 129)),
    ]);
    // The first by byte, then the whole record.
    let mut block = ottawa();
    put(&mut block, 129, "99.0   ");
    assert_eq!(fault(&block), (7, 129));
    put(&mut block, 114, "60");
    assert_eq!(fault(&block), (7, 114));
    put(&mut block, 101, "x");
    assert_eq!(fault(&block), (5, 101));
}

/// 2.6: the sign over all three parts, the minus before zero too.
#[test]
fn signs() {
    let degree = 3600 * UNIT;
    for (written, x) in [
        (" -7530 0.0000", -75 * degree - 1800 * UNIT),
        ("  7530 0.0000", 75 * degree + 1800 * UNIT),
        (" +7530 0.0000", 75 * degree + 1800 * UNIT),
        ("-07530 0.0000", -75 * degree - 1800 * UNIT),
        ("  -03000.0000", -1800 * UNIT),
        (" -003000.0000", -1800 * UNIT),
        ("   03000.0000", 1800 * UNIT),
        ("  +03000.0000", 1800 * UNIT),
        ("  -0 0   0.75", -3 * QUARTER),
        ("  -0 0 0.0000", 0),
        ("  -0-0-0.0000", 0),
        ("-999 0 0.0000", -999 * degree),
        ("9999 0 0.0000", 9999 * degree),
        ("  -1 130.2500", -degree - 60 * UNIT - 30 * UNIT - QUARTER),
    ] {
        assert_eq!(fault(&at_longitude(written, x)), (0, 0), "{written}");
        assert_eq!(fault(&at_latitude(written, x)), (0, 0), "{written}");
        if x != 0 {
            assert_eq!(fault(&at_longitude(written, -x)), (15, 110), "{written}");
        }
    }
    // Minutes added to negative degrees would be -75° + 30'.
    let added = -75 * degree + 1800 * UNIT;
    assert_eq!(fault(&at_longitude(" -7530 0.0000", added)), (15, 110));
    // The sign of the value says +1800 of a minus before zero.
    assert_eq!(
        fault(&at_longitude("  -03000.0000", 1800 * UNIT)),
        (15, 110)
    );
}

/// 2.7, 2.8: four decimals are the descriptor; minutes and seconds are 0 or more, below 60.
#[test]
fn minutes_and_seconds() {
    for (text, seconds) in [
        ("0.0    ", 0),
        ("    0.0", 0),
        ("  0.   ", 0),
        ("-0.0000", 0),
        ("0D+99  ", 0),
        ("0.00001", UNIT / 100_000),
        ("1.0D-09", 1),
        ("1.D-9  ", 1),
        ("30.    ", 30 * UNIT),
        ("1.5E+01", 15 * UNIT),
        ("   59.5", 59 * UNIT + UNIT / 2),
        ("59.9999", 60 * UNIT - UNIT / 10_000),
        ("+7.5   ", 7 * UNIT + UNIT / 2),
    ] {
        let written = format!("   1 0{text}");
        let header = at_longitude(&written, 3600 * UNIT + seconds);
        // The lattice begins at the next multiple, and still has 1201.
        assert_eq!(fault(&header), (0, 0), "{text}");
        assert_eq!(
            fault(&at_longitude(&written, 3600 * UNIT + seconds + 1)),
            (15, 110)
        );
    }
    check_rows(&[
        (114, "59", (15, 110)),
        (114, "60", (7, 114)),
        (114, "-1", (7, 114)),
        (114, "99", (7, 114)),
        (116, "60.0000", (7, 116)),
        (116, "-0.0001", (7, 116)),
        (116, "59.9999", (15, 110)),
        (116, "6.E1   ", (7, 116)),
        (127, "-0", (0, 0)),
        (127, "60", (7, 127)),
        (129, "-1.0000", (7, 129)),
        (129, "-0.0000", (0, 0)),
        (110, "-999", (15, 110)),
        (123, "  91", (15, 110)),
    ]);
}

/// 4.6: without a point seconds have four decimals; so do they in a field of seven bytes alone.
#[test]
fn seconds_without_a_point() {
    for (text, seconds) in [
        ("     30", 3 * (UNIT / 1000)),
        ("30     ", 3 * (UNIT / 1000)),
        (" 300000", 30 * UNIT),
        ("300000 ", 30 * UNIT),
        ("0300000", 30 * UNIT),
        ("    3E5", 30 * UNIT),
        ("3000E+2", 30 * UNIT),
        ("599999 ", 60 * UNIT - UNIT / 10_000),
        ("599D+3 ", 60 * UNIT - UNIT / 10),
        ("      1", UNIT / 10_000),
        ("   1D-5", 1),
        ("+7500  ", 3 * QUARTER),
        ("0000000", 0),
        ("-0D-99 ", 0),
    ] {
        let written = format!("   1 0{text}");
        let x = 3600 * UNIT + seconds;
        assert_eq!(fault(&at_longitude(&written, x)), (0, 0), "{text}");
        assert_eq!(fault(&at_latitude(&written, x)), (0, 0), "{text}");
        assert_eq!(fault(&at_longitude(&written, x + 1)), (15, 110), "{text}");
    }
    check_rows(&[
        (116, "     60", (15, 110)),
        (116, "600000 ", (7, 116)),
        (116, "3000000", (7, 116)),
        (116, "    6E5", (7, 116)),
        (116, "     -1", (7, 116)),
        (116, "   1D13", (7, 116)),
        (116, "   1D-6", (8, 116)),
        (116, "  1D-10", (8, 116)),
        (129, "     30", (15, 110)),
        (129, "600000 ", (7, 129)),
        (129, "1D-6   ", (8, 129)),
        (129, "0E+99  ", (0, 0)),
        // The other reals of a Canadian record A.
        (817, "      750000", (0, 0)),
        (817, "  750000E+00", (0, 0)),
        (829, "75E4        ", (0, 0)),
        (829, "          75", (7, 817)),
        (817, "           3", (7, 817)),
        (817, "     3000000", (10, 817)),
        (829, "     3000000", (7, 817)),
        (817, "        1D-4", (8, 817)),
        (829, "        1D15", (7, 829)),
        (547, "                -2718D17", (0, 0)),
        (547, "  -271800000000000D+06  ", (0, 0)),
        (547, "                 -271800", (8, 547)),
        (571, "                 162D+18", (0, 0)),
        (571, "                 163D+18", (15, 110)),
        (787, "                       1", (8, 787)),
        (787, "                     1D6", (9, 787)),
    ]);
}

/// 2.9: y 0.75 with x 0.75, 1.5 or 3; y 3 with x 3, 6 or 12. The lattice is full each time.
#[test]
fn all_thirty_six_pairs() {
    let quarters = [3, 6, 12, 24, 48, 4];
    let listed = [(3, 3), (3, 6), (3, 12), (12, 12), (12, 24), (12, 48)];
    for y in quarters {
        for x in quarters {
            let spacings = [x * QUARTER, y * QUARTER];
            let corner = [-75 * 3600 * UNIT, 45 * 3600 * UNIT];
            let block = canadian_header(" -75 0 0.0000  45 0 0.0000", corner, spacings);
            let expected = match listed.contains(&(y, x)) {
                true => (0, 0),
                false => (7, 817),
            };
            assert_eq!(fault(&block), expected, "y {y} x {x}");
        }
    }
}

/// A slip: no field rule stops a spacing of zero or below, and nothing may be divided by it.
#[test]
fn spacings_that_are_none() {
    check_rows(&[
        (817, "         0.0", (7, 817)),
        (829, "         0.0", (7, 817)),
        (829, "       -0.75", (7, 817)),
        (817, "       -0.75", (7, 817)),
        (817, "        0D99", (7, 817)),
        (829, "         1.5", (7, 817)),
        (817, "         1.5", (10, 817)),
        (829, "  0.75000001", (7, 817)),
        // What the readings refuse stands at its own field.
        (829, "      1.D-10", (8, 829)),
        (829, "       1.D+9", (7, 829)),
        (817, "      1.D-10", (8, 817)),
        // READINGS-02, 6.4 and 6.5: a blank field's last byte, a second point itself.
        (829, "            ", (6, 840)),
        (817, "0.75.       ", (6, 821)),
        (817, "  0.750000E0", (0, 0)),
    ]);
    let mut block = ottawa();
    put(&mut block, 817, "         0.0         0.0");
    assert_eq!(fault(&block), (7, 817));
}

/// 2.10: all bytes first; then the corner, the pair, the order of the corners, the lattice.
#[test]
fn the_order_over_the_whole_record() {
    let mut block = ottawa();
    let right = block.clone();
    let east = real(-270_899 * UNIT);
    put(&mut block, 643, &east);
    assert_eq!(fault(&block), (10, 817));
    put(&mut block, 619, &real(162_000 * UNIT));
    assert_eq!(fault(&block), (10, 547));
    put(&mut block, 829, "         1.5");
    assert_eq!(fault(&block), (7, 817));
    put(&mut block, 114, "31");
    assert_eq!(fault(&block), (15, 110));
    put(&mut block, 865, "a");
    assert_eq!(fault(&block), (5, 865));
    put(&mut block, 859, "  1200");
    assert_eq!(fault(&block), (7, 859));
    put(&mut block, 145, "     2");
    assert_eq!(fault(&block), (9, 145));
    // n is 1201 and so are the columns: 10 at 859 cannot come.
    assert_eq!(fault(&right), (0, 0));
}

/// 2.11: what is fixed, and what keeps 01's rule.
#[test]
fn codes() {
    check_rows(&[
        (145, "     2", (9, 145)),
        (145, "     3", (9, 145)),
        (145, "     0", (9, 145)),
        (151, "     2", (9, 151)),
        (157, "     1", (9, 157)),
        (157, "     2", (9, 157)),
        (163, "     1", (9, 163)),
        (163, "    -0", (0, 0)),
        (529, "     2", (9, 529)),
        (529, "     0", (9, 529)),
        (535, "     1", (9, 535)),
        (541, "     5", (9, 541)),
        (811, "     1", (9, 811)),
        (811, "     2", (9, 811)),
        (853, "  1201", (9, 853)),
        (859, "  1200", (7, 859)),
        (859, "  1202", (7, 859)),
        (859, "     1", (7, 859)),
        (859, "     0", (7, 859)),
        (859, " 01201", (0, 0)),
        // READINGS-02, 6.4: an integer may not be followed by a blank.
        (859, "1201  ", (6, 863)),
        // z keeps 01's rule in metres; angle and the fifteen reals keep theirs.
        (841, "        0.01", (0, 0)),
        (841, "       0.015", (7, 841)),
        (841, "         2.0", (7, 841)),
        (787, "                   1.D-9", (9, 787)),
        (169, "1D99", (0, 0)),
        // READINGS-02, 6.2: blank, so its last byte.
        (169, "   ", (6, 192)),
        (739, "                    -99.", (0, 0)),
        (739, "                   1.D+9", (7, 739)),
    ]);
}

/// The session after these blocks, and the grid of sevens with one cell to spare.
fn after(blocks: &[Vec<u8>]) -> (Vec<i64>, Vec<i32>) {
    let mut numbers = Kept::opened(CANADIAN).numbers().to_vec();
    let mut grid = vec![7; CELLS + 1];
    for (number, block) in blocks.iter().enumerate() {
        let answer = deliver(&mut numbers, number as u32, block, &mut grid);
        assert_eq!(answer, told(DONE, 0, 0), "block {number}");
    }
    (numbers, grid)
}

/// Both readings of a session, one delivery after these blocks.
fn answer_after(blocks: &[Vec<u8>], number: u32, block: &[u8]) -> Told {
    let (mut numbers, mut grid) = after(blocks);
    let before = numbers.clone();
    let answer = deliver(&mut numbers, number, block, &mut grid);
    let (mut session, mut cells) = (Session::opened(CANADIAN), vec![7; CELLS + 1]);
    for (number, block) in blocks.iter().enumerate() {
        load::deliver(&mut session, number as u32, block, &mut cells);
    }
    let of_text = load::deliver(&mut session, number, block, &mut cells);
    assert_eq!(presses::told(of_text), answer);
    assert!(cells == grid);
    if answer.result != DONE {
        assert_eq!(numbers, before);
    }
    answer
}

fn first_profile() -> Vec<Vec<u8>> {
    let posts: Vec<i64> = (0..1201).collect();
    ottawa_profile(0, &posts, (0, 1200))
}

/// 2.11, 2.12: the profile's m is 1201, it begins at column 0 and row 0.
#[test]
fn profiles() {
    let header = [ottawa()];
    for (byte, text, expected) in [
        (13, "  1200", told(7, 1, 13)),
        (13, "  1202", told(7, 1, 13)),
        (13, "     1", told(7, 1, 13)),
        (13, "  2048", told(7, 1, 13)),
        (7, "     2", told(9, 1, 7)),
        (
            25,
            &real(-271_800 * UNIT + 3 * QUARTER)[..],
            told(10, 1, 25),
        ),
        (25, &real(-271_800 * UNIT + 1), told(10, 1, 25)),
        (49, &real(162_000 * UNIT + 3 * QUARTER), told(10, 1, 49)),
        (49, &real(162_000 * UNIT - 3 * QUARTER), told(10, 1, 49)),
        (73, &real(-10_000 * UNIT), told(DONE, 0, 0)),
        (73, &real(10_001 * UNIT), told(7, 1, 73)),
        (1021, "0", told(5, 1, 1021)),
    ] {
        let mut block = first_profile()[0].clone();
        put(&mut block, byte, text);
        assert_eq!(
            answer_after(&header, 1, &block),
            expected,
            "\"{text}\" at {byte}"
        );
    }
    let mut text = vec![ottawa()];
    text.extend(first_profile());
    assert_eq!(text.len(), 9);
    // The next one stands at column 1, and nowhere else.
    let second = ottawa_profile(1, &[5; 1201], (5, 5));
    assert_eq!(answer_after(&text, 9, &second[0]), told(DONE, 0, 0));
    let mut third = ottawa_profile(2, &[5; 1201], (5, 5));
    put(&mut third[0], 7, "     2");
    assert_eq!(answer_after(&text, 9, &third[0]), told(10, 9, 25));
}

#[test]
fn a_profile_block_by_block() {
    let mut text = vec![ottawa()];
    text.extend(first_profile());
    let (numbers, grid) = after(&text);
    assert!((0..1201).all(|row| grid[row] == 100 * row as i32));
    assert!(grid[1201..CELLS].iter().all(|&cell| cell == VOID));
    assert_eq!(grid[CELLS], 7);
    // Taken, closed, posts, filled, low, high; 1 + 2 + .. + 1200 is 720,600.
    assert_eq!(numbers[20..26], [9, 1, 1201, 1201, 0, 120_000]);
    assert_eq!(numbers[37..], [72_060_000, 1]);
    for taken in [2, 8] {
        let (numbers, _) = after(&text[..taken]);
        let read = [146, 1166][usize::from(taken == 8)];
        assert_eq!(numbers[28..34], [1201, 0, 0, 0, 1200 * UNIT, read]);
        assert_eq!(broken(&numbers), NONE);
    }
    // A wrong extreme of the first block is told with the eighth.
    put(&mut text[1], 97, &real(UNIT));
    assert_eq!(answer_after(&text[..8], 8, &text[8]), told(11, 1, 97));
}

#[test]
fn held_early_and_short_of_cells() {
    let mut text = vec![ottawa()];
    text.extend(first_profile());
    assert_eq!(answer_after(&text[..3], 0, &text[0]), told(HELD, 0, 0));
    assert_eq!(answer_after(&text[..3], 4, &text[4]), told(3, 4, 0));
    assert_eq!(answer_after(&text[..3], 2, &text[2][1..]), told(1, 2, 0));
    let (mut numbers, mut grid) = after(&text[..3]);
    let short = &mut grid[..CELLS - 1];
    assert_eq!(deliver(&mut numbers, 3, &text[3], short), told(12, 3, 0));
    let mut fresh = Kept::opened(CANADIAN).numbers();
    assert_eq!(deliver(&mut fresh, 0, &text[0], short), told(12, 0, 0));
    // Every other refusal of block 0 comes before that one.
    put(&mut text[0], 114, "31");
    assert_eq!(deliver(&mut fresh, 0, &text[0], &mut []), told(15, 0, 110));
}

/// A session, a number of it, values with which it is sound, and values with which it is not.
type Sides<'a> = (&'a [i64], &'a str, &'a [i64], &'a [i64]);

/// 2.13: 01's clauses with the family's field rules; the counting ones are not tightened.
#[test]
fn soundness() {
    let mut text = vec![ottawa()];
    text.extend(first_profile());
    let (begun, _) = after(&text[..1]);
    let (inside, _) = after(&text[..3]);
    let (closed, _) = after(&text);
    let both_sides: [Sides; 17] = [
        (&begun, "level", &[1], &[0, 2, 3]),
        (&begun, "system", &[0], &[1, 2]),
        (&begun, "zone", &[0], &[1]),
        (&begun, "ground", &[3], &[0, 1, 2]),
        (&begun, "vertical", &[2], &[0, 1, 3]),
        (&begun, "accuracy", &[0], &[1, 2]),
        (&begun, "profiles", &[1201], &[1, 1200, 1202, 2048, 0]),
        (
            &begun,
            "xstep",
            &[3 * QUARTER],
            &[0, 1, UNIT, 6 * QUARTER, 3 * UNIT],
        ),
        (
            &begun,
            "ystep",
            &[3 * QUARTER],
            &[0, 1, UNIT, 6 * QUARTER, 3 * UNIT],
        ),
        (
            &begun,
            "zstep",
            &[UNIT / 100, UNIT],
            &[0, UNIT / 1000, 2 * UNIT],
        ),
        (&inside, "open posts", &[1201], &[1200, 1202, 317, 2048]),
        (&inside, "open row", &[0], &[1]),
        (&inside, "open read", &[316], &[146, 1201, 315, 486]),
        (&inside, "column", &[0], &[1]),
        (&closed, "posts", &[1, 1202, 2048], &[0, 2049]),
        (&closed, "taken", &[2, 14], &[1, 15]),
        (&closed, "finished", &[0], &[1]),
    ];
    for (numbers, name, good, bad) in both_sides {
        let shrunk = [("filled", 0), ("sum", 0)];
        for &value in good {
            let changed = with(&with(numbers, &shrunk), &[(name, value)]);
            assert_eq!(broken(&changed), NONE, "{name} {value}");
        }
        for &value in bad {
            let changed = with(&with(numbers, &shrunk), &[(name, value)]);
            assert_ne!(broken(&changed), NONE, "{name} {value}");
        }
    }
    // More posts and blocks a profile than any Canadian one has: 01's clauses let them be.
    let more = [("open read", 1166), ("posts", 1166), ("taken", 8)];
    assert_eq!(broken(&with(&inside, &more)), NONE);
}

/// 2.14: the corner's text is not kept, so nothing ties a session to it.
#[test]
fn a_session_knows_no_corner_text() {
    let (begun, _) = after(&[ottawa()]);
    let moved = [("SW x", -271_800 * UNIT + 1), ("NW x", -271_800 * UNIT)];
    assert_eq!(broken(&with(&begun, &moved)), NONE);
    assert_eq!(
        broken(&with(&begun, &[("SW x", -271_800 * UNIT - 1)])),
        NONE
    );
    // A whole spacing further west there is a column more.
    let wider = [("SW x", -271_800 * UNIT - 3 * QUARTER)];
    assert_eq!(broken(&with(&begun, &wider)), ["1201 columns"]);
}

/// 2.15, 2.16: 003's order, left-justified; the other family's codes are none.
#[test]
fn origins() {
    let codes = [
        "NTDB", "BC  ", "MB  ", "NB  ", "NL  ", "NS  ", "NT  ", "NU  ", "ON  ", "PE  ", "AB  ",
        "QC  ", "SK  ", "YT  ", "MULT",
    ];
    for (before, code) in codes.iter().enumerate() {
        let mut block = ottawa();
        put(&mut block, 141, code);
        assert_eq!(origin_of(CANADIAN, &block), before as u32 + 1, "{code}");
        assert_eq!((origin(&block), origin_of(USGS, &block)), (0, 0));
        for family in [2, 255] {
            assert_eq!(origin_of(family, &block), 0);
        }
        assert_eq!(origin_of(CANADIAN, &block[..1023]), 0);
    }
    for code in ["  BC", "BC", "bc  ", "NTD ", "MAC ", "FS  ", "    ", "MULI"] {
        let mut block = ottawa();
        put(&mut block, 141, &format!("{code:4}"));
        let expected = if code == "BC" { 2 } else { 0 };
        assert_eq!(origin_of(CANADIAN, &block), expected, "{code}");
    }
    // The origin asks nothing else of the block.
    let mut block = vec![0; 1024];
    put(&mut block, 141, "AB  ");
    assert_eq!(origin_of(CANADIAN, &block), 11);
}

/// 2.15: the name is the same for both families.
#[test]
fn names() {
    assert_eq!(name_length(&ottawa()), 16);
    let mut block = ottawa();
    put(&mut block, 1, &format!("{:>40}", "right-justified"));
    assert_eq!((name_length(&block), fault(&block)), (40, (0, 0)));
}

/// 2.17: writer and lister stay USGS. A Canadian file is no text there, or 0.75 is no spacing, or
/// it obeys both families and needs more cells than the lister lends.
#[test]
fn the_lister_and_blocks_of_both_families() {
    let said = |block: &[u8]| list(block, 15_000).output();
    assert_eq!(said(&ottawa()), "refused 5 0 1\n");
    let mut capitals = ottawa();
    put(&mut capitals, 1, "031G05_0100_DEMW");
    put(&mut capitals, 41, "NATURAL RESOURCES CANADA");
    assert_eq!(said(&capitals), "refused 7 0 817\n");
    let corner = [-75 * 3600 * UNIT, 45 * 3600 * UNIT];
    let mut both = canadian_header(" -75 0 0.0000  45 0 0.0000", corner, [3 * UNIT; 2]);
    put(&mut both, 1, &" ".repeat(100));
    assert_eq!((fault(&both), check(&both).is_ok()), ((0, 0), true));
    assert_eq!(said(&both), "refused 12 0 0\n");
    assert_eq!(list(&both, CELLS).output(), "unfinished 1\n");
    assert_eq!(
        (size_of(USGS, &both), size_of(CANADIAN, &both)),
        ([1201; 2], [1201; 2])
    );
    assert_eq!((origin(&both), origin_of(CANADIAN, &both)), (0, 1));
    // The family is what the caller says: a profile of three posts is USGS only.
    let mut short = ottawa_profile(0, &[5; 3], (5, 5));
    put(&mut short[0], 25, &real(corner[0]));
    for (family, expected) in [(USGS, told(DONE, 0, 0)), (CANADIAN, told(7, 1, 13))] {
        let mut numbers = Kept::opened(family).numbers();
        let mut grid = vec![7; CELLS];
        assert_eq!(deliver(&mut numbers, 0, &both, &mut grid).result, DONE);
        assert_eq!(numbers[place::FAMILY], family);
        assert_eq!(deliver(&mut numbers, 1, &short[0], &mut grid), expected);
    }
}

/// 2.19: another family in the middle is another session: sound only where it obeys both.
#[test]
fn the_family_exchanged() {
    let (quarter, _) = after(&[ottawa()]);
    let as_usgs = ["x spacing 1 to 9999, whole", "y spacing 1 to 9999, whole"];
    assert_eq!(broken(&with(&quarter, &[("family", 0)])), as_usgs);
    let corner = [-75 * 3600 * UNIT, 45 * 3600 * UNIT];
    let block = canadian_header(" -75 0 0.0000  45 0 0.0000", corner, [3 * UNIT; 2]);
    let (threes, _) = after(&[block]);
    assert_eq!(broken(&with(&threes, &[("family", 0)])), NONE);
    let mut paper = vec![0; NUMBERS];
    deliver(&mut paper, 0, &paper_blocks()[0], &mut [0; 6]);
    assert_eq!(broken(&paper), NONE);
    assert_ne!(broken(&with(&paper, &[("family", 1)])), NONE);
    for numbers in [&quarter, &threes, &paper, &vec![0; NUMBERS]] {
        for family in [2, 255, 1 << 32, (1 << 32) + 1, i64::MAX] {
            assert_eq!(broken(&with(numbers, &[("family", family)])), [FAMILY]);
        }
        for family in [-1, i64::MIN, -(1 << 32)] {
            assert_eq!(broken(&with(numbers, &[("family", family)])), [NEGATIVE]);
        }
    }
}

/// A slip: quotients of negative longitudes at 0.75. The first multiple not below -271799.9 is
/// -271799.25, so the 1201st is -270899.25.
#[test]
fn multiples_of_three_quarters() {
    let written = " -752959.9000";
    let x = -271_799 * UNIT - 9 * (UNIT / 10);
    let mut block = at_longitude(written, x);
    let header = check_of(CANADIAN, &block).expect("valid");
    assert_eq!(header.columns().start(), -271_799 * UNIT - QUARTER);
    assert_eq!(header.columns().end(), -270_899 * UNIT - QUARTER);
    assert_eq!(header.columns().count(), 1201);
    // 1200 spacings east of the corner itself there are only 1200.
    for corner in [643, 691] {
        put(&mut block, corner, &real(x + 900 * UNIT));
    }
    assert_eq!(fault(&block), (10, 817));
    // East of a corner on the lattice a billionth decides.
    for (east, expected) in [
        (-270_900 * UNIT, (0, 0)),
        (-270_900 * UNIT - 1, (10, 817)),
        (-270_900 * UNIT + 3 * QUARTER - 1, (0, 0)),
        (-270_900 * UNIT + 3 * QUARTER, (10, 817)),
    ] {
        let mut block = ottawa();
        put(&mut block, 643, &real(east));
        put(&mut block, 691, &real(east));
        assert_eq!(fault(&block), expected, "{east}");
    }
    for (north, expected) in [
        (162_899, (10, 817)),
        (162_900, (0, 0)),
        (162_901, (10, 817)),
    ] {
        let mut block = ottawa();
        put(&mut block, 619, &real(north * UNIT));
        put(&mut block, 667, &real(north * UNIT));
        assert_eq!(fault(&block), expected, "{north}");
    }
}

/// Slips: longitude held against y, and the text of latitude against x.
#[test]
fn longitude_is_x() {
    let degree = 3600 * UNIT;
    let swapped = "  45 0 0.0000 -75 0 0.0000";
    let at = |corner| fault(&canadian_header(swapped, corner, [3 * QUARTER; 2]));
    assert_eq!(at([45 * degree, -75 * degree]), (0, 0));
    assert_eq!(at([-75 * degree, 45 * degree]), (15, 110));
    assert_eq!(
        fault(&at_longitude(" -752960.0000", -271_800 * UNIT)),
        (7, 116)
    );
    assert_eq!(
        fault(&at_longitude(" -752959.9999", -271_800 * UNIT)),
        (15, 110)
    );
}

/// A slip: 1201 is no rule of USGS sheets.
#[test]
fn usgs_sheets_keep_their_size() {
    let blocks = paper_blocks();
    let header = check_of(USGS, &blocks[0]).expect("valid");
    assert_eq!(header, check(&blocks[0]).expect("valid"));
    assert_eq!((header.columns().count(), header.rows().count()), (2, 3));
    // Blank degrees ("Across the requests", 2 + 6).
    assert_eq!(record_a::check_of(CANADIAN, &blocks[0]), Err((6, 113)));
}

/// 9,609 blocks and 1,442,401 cells, each at the height of its column and row.
#[test]
fn a_whole_sheet() {
    let post = |column: i64, row: i64| (column * 7 + row) % 500 - 100;
    let mut text = vec![ottawa()];
    put(&mut text[0], 739, &real(-100 * UNIT));
    put(&mut text[0], 763, &real(399 * UNIT));
    for column in 0..1201 {
        let posts: Vec<i64> = (0..1201).map(|row| post(column, row)).collect();
        text.extend(ottawa_profile(column, &posts, (-100, 399)));
    }
    assert_eq!(text.len(), 9_609);
    let (mut numbers, mut grid) = after(&text);
    for column in 0..1201 {
        let cells = &grid[column * 1201..(column + 1) * 1201];
        let height = |row| 100 * post(column as i64, row as i64) as i32;
        assert!((0..1201).all(|row| cells[row] == height(row)));
    }
    assert_eq!(grid[CELLS], 7);
    assert_eq!(
        numbers[20..26],
        [9_609, 1201, 1_442_401, 1_442_401, -10_000, 39_900]
    );
    assert_eq!(numbers[place::SUM], sum_of_cells(&grid[..CELLS]));
    let sheet = meaning::read_of(CANADIAN, &text).expect("whole");
    assert_eq!(Kept::after(&sheet).numbers()[..], numbers);
    assert!(sheet.complete() && sheet.cells() == grid[..CELLS]);
    let lines = "sheet 1201 1201 0.75 0.75 1.00\nposts 1442401 void 0\n\
                 range -100.00 399.00\nend 9609\n";
    let report = sound(&numbers).expect("sound").report();
    assert_eq!(report.as_deref(), Some(lines));
    assert_eq!(
        frames::press(CANADIAN, &frames::line_of(&text.concat())),
        lines
    );
    assert_eq!(
        deliver(&mut numbers, 9_609, &text[1], &mut grid),
        told(4, 9_609, 0)
    );
}

/// Whole spacings as ever, others with two decimals.
#[test]
fn reports_of_every_pair() {
    let (mut numbers, _) = after(&[ottawa()]);
    let changes = [
        ("taken", 1202),
        ("closed", 1201),
        ("posts", 1201),
        ("column", 0),
    ];
    numbers = with(&numbers, &changes);
    for (x, y, written) in [
        (3, 3, "0.75 0.75"),
        (6, 3, "1.50 0.75"),
        (12, 3, "3 0.75"),
        (12, 12, "3 3"),
        (24, 12, "6 3"),
        (48, 12, "12 3"),
    ] {
        let (east, north) = (1200 * x * QUARTER, 1200 * y * QUARTER);
        let corners = [
            ("SW x", 0),
            ("SW y", 0),
            ("NW x", 0),
            ("NW y", north),
            ("NE x", east),
            ("NE y", north),
            ("SE x", east),
            ("SE y", 0),
            ("xstep", x * QUARTER),
            ("ystep", y * QUARTER),
        ];
        let report = sound(&with(&numbers, &corners)).expect("sound").report();
        let lines = report.expect("complete");
        let expected = format!("sheet 1201 1201 {written} 1.00\n");
        assert!(lines.starts_with(&expected), "{lines}");
    }
}

/// The Load button's own answers to a line, for a fresh state.
#[test]
fn a_press_on_a_fresh_state() {
    let mut sheet = paper_blocks().concat();
    let lines = "sheet 3 2 30 30 1.00\nposts 5 void 1\nrange 9.00 12.00\nend 3\n";
    assert_eq!(frames::press(USGS, &frames::line_of(&sheet)), lines);
    sheet.truncate(2000);
    let line = frames::line_of(&sheet);
    assert_eq!(line.len(), 4 + 1024 + 4 + 976);
    assert_eq!(frames::press(USGS, &line), "refused 1 1 0\nunfinished 1\n");
    assert_eq!(frames::press(USGS, &line[..1030]), "unfinished 1\n");
    assert_eq!(frames::press(USGS, b""), "unfinished 0\n");
    let line = frames::line_of(&[ottawa(), ottawa()].concat());
    // Its name begins with `031g05`, and a profile with an integer.
    assert_eq!(
        frames::press(CANADIAN, &line),
        "refused 6 1 4\nunfinished 1\n"
    );
    assert_eq!(
        frames::press(USGS, &line),
        "refused 5 0 1\nrefused 3 1 0\nunfinished 0\n"
    );
}

/// Valid headers are valid, their corner is the text's, and all spellings are there.
#[test]
fn made_headers_are_valid() {
    let dice = &mut Dice::new(11);
    let mut seen = BTreeSet::new();
    for _ in 0..6_000 {
        let head = canadian::head(dice);
        let block = head.block(dice);
        let header = check_of(CANADIAN, &block).expect("valid");
        assert_eq!(header, head.numbers);
        let starts = (header.columns().start(), header.rows().start());
        assert_eq!(starts, (head.west, head.south));
        let [x, y, ..] = header.corners;
        let degree = 3600 * UNIT;
        for (name, holds) in [
            ("west", x < 0),
            ("east", x > 0),
            ("south", y < 0),
            ("north", y > 0),
            ("just west of zero", -degree < x && x < 0),
            ("just south of zero", -degree < y && y < 0),
            ("half a degree", x % degree != 0 && x % (degree / 2) == 0),
            ("a billionth", x % 1000 != 0),
            ("obeys both", check(&block).is_ok()),
            ("corner inside", header.corners[0] > header.corners[2]),
            ("corner outermost", header.corners[0] < header.corners[2]),
        ] {
            if holds {
                seen.insert(name.to_string());
            }
        }
        seen.insert(format!("{} {}", header.y_spacing, header.x_spacing));
    }
    assert_eq!(seen.len(), 11 + 6, "{seen:?}");
}

/// Each rule is broken by some of the blocks to be compared.
#[test]
fn inputs_break_every_rule() {
    let mut seen = BTreeSet::new();
    for family in inputs::FAMILIES {
        let (mut left, mut every) = (6_000, 0);
        (family.make)(&mut Dice::new(12), &mut |block| {
            every += 1;
            if left > 0 && every % 3 == 0 {
                left -= 1;
                seen.insert(fault(block));
            }
        });
    }
    let mut wanted = vec![
        (0, 0),
        (1, 0),
        (15, 110),
        (7, 817),
        (10, 547),
        (10, 817),
        (7, 859),
    ];
    wanted.extend([1, 41, 101, 136, 137, 138, 865].map(|byte| (5, byte)));
    wanted.extend((110..=135).map(|byte| (6, byte)));
    wanted.extend([114, 116, 127, 129].map(|byte| (7, byte)));
    wanted.extend([116, 129].map(|byte| (8, byte)));
    wanted.extend([145, 157, 163, 529, 535, 811, 853].map(|byte| (9, byte)));
    demand_all_seen(wanted, &seen);
}

/// What compare_canadian sends, answered here alone: the blocks taken mean what the steps led to.
#[test]
fn sheets_over_a_poor_line() {
    let dice = &mut Dice::new(13);
    let mut calls = 0;
    let mut ask = |_| calls += 1;
    let mut north = North::open(&mut ask);
    for turn in 0..40 {
        north.send_broken_off(dice, turn);
    }
    assert!(north.answers.all() > 400);
    for turn in 0..20 {
        north.send_broken_off_by_runs(dice, turn);
    }
    assert!(north.runs.answers.all() > 100);
    assert_eq!(north.ends.all(), 60);
    assert!(calls > 620);
}
