//! The check of a record A: the paper's sheet, its lattice examples, and every field's
//! rule on a block that is right but for that field.

mod common;

use common::{paper_header, put};
use second::block::UNIT;
use second::lattice::Axis;
use second::record_a::{check, name_length, origin};

/// Decimals as billionths, three places kept.
fn thousandths(value: i64) -> i64 {
    value * (UNIT / 1000)
}

#[test]
fn the_papers_sheet() {
    let header = check(&paper_header()).expect("valid");
    assert_eq!((header.level, header.system, header.zone), (1, 1, 17));
    assert_eq!((header.ground_unit, header.vertical_unit), (2, 2));
    let corners = [600, 900, 600, 960, 630, 960, 630, 900];
    assert_eq!(header.corners, corners.map(|corner| corner * UNIT));
    assert_eq!(header.stated_least, 9 * UNIT);
    assert_eq!(header.stated_greatest, 12 * UNIT);
    assert_eq!((header.accuracy, header.n), (0, 2));
    assert_eq!((header.x_spacing, header.y_spacing), (30 * UNIT, 30 * UNIT));
    assert_eq!(header.z_spacing, UNIT);
    assert_eq!((header.columns().count(), header.rows().count()), (2, 3));
    assert_eq!(header.cells(), 6);
}

#[test]
fn lattice_examples_of_the_paper() {
    let start = |least, spacing| Axis::between(least, least + 1_000 * UNIT, spacing * UNIT).start();
    let end =
        |greatest, spacing| Axis::between(greatest - 1_000 * UNIT, greatest, spacing * UNIT).end();
    assert_eq!(start(thousandths(549_498_713), 30), 549_510 * UNIT);
    assert_eq!(start(thousandths(3_011_225_379), 30), 3_011_250 * UNIT);
    assert_eq!(start(-428_399 * UNIT, 3), -428_397 * UNIT);
    assert_eq!(end(thousandths(-424_800_500), 3), -424_803 * UNIT);
}

#[test]
fn a_billionth_decides_whether_an_end_is_on_the_lattice() {
    for zero in [-600 * UNIT, -30 * UNIT, 0, 30 * UNIT, 900 * UNIT] {
        let count =
            |least, greatest| Axis::between(zero + least, zero + greatest, 30 * UNIT).count();
        assert_eq!(count(0, 60 * UNIT), 3);
        assert_eq!(count(1, 60 * UNIT), 2);
        assert_eq!(count(-1, 60 * UNIT - 1), 2);
        assert_eq!(count(1, 60 * UNIT - 1), 1);
        assert_eq!(count(1, 30 * UNIT - 1), 0);
        let axis = Axis::between(zero - 1, zero + 60 * UNIT + 1, 30 * UNIT);
        assert_eq!(axis.place_of(zero), Some(0));
        assert_eq!(axis.place_of(zero + 60 * UNIT), Some(2));
        assert_eq!(axis.place_of(zero + 90 * UNIT), None);
        assert_eq!(axis.place_of(zero + 1), None);
        assert_eq!(axis.place_of(zero - 30 * UNIT), None);
    }
}

#[test]
fn a_sheet_west_of_zero_has_the_columns_of_its_mirror_image() {
    for (least, greatest) in [(-428_400_000, -424_800_500), (-1, 1), (-2_999, -1)] {
        let west = Axis::between(thousandths(least), thousandths(greatest), 3 * UNIT);
        let east = Axis::between(thousandths(-greatest), thousandths(-least), 3 * UNIT);
        assert_eq!(west.count(), east.count());
        assert_eq!(west.start(), -east.end());
    }
}

/// Byte, text put there, kind and byte of the fault; (0, 0) where there is none. Of wrong form it
/// is, from the front, the first byte that leaves no right field: in an integer a blank behind a
/// digit, in a blank field the last (READINGS-02, 6.2, 6.4, 6.5).
type Row = (usize, &'static str, (u32, u32));

fn check_rows(rows: &[Row]) {
    for &(first, text, expected) in rows {
        let mut block = paper_header();
        put(&mut block, first, text);
        let found = check(&block).err().unwrap_or((0, 0));
        assert_eq!(found, expected, "\"{text}\" at {first}");
    }
}

#[test]
fn texts() {
    check_rows(&[
        (1, "a", (5, 1)),
        (144, "z", (5, 1)),
        (140, "\x1F", (5, 1)),
        (100, "\x7F", (5, 1)),
        (100, "`{|}~@[", (0, 0)),
        (865, "b", (5, 865)),
        (1024, "\n", (5, 865)),
        (1020, "2 A-~", (0, 0)),
    ]);
    for byte in 128..=255 {
        let mut block = paper_header();
        block[143] = byte;
        assert_eq!(check(&block), Err((5, 1)));
    }
}

#[test]
fn codes() {
    check_rows(&[
        (145, "     0", (9, 145)),
        (145, "     3", (0, 0)),
        (145, "     4", (9, 145)),
        (145, "4     ", (6, 146)),
        (151, "     2", (9, 151)),
        (157, "     3", (9, 157)),
        (157, "     0", (9, 163)),
        (157, "     0     0", (9, 529)),
        (157, "     2  9999", (0, 0)),
        (157, "     2 10000", (9, 163)),
        (163, "     0", (9, 163)),
        (163, "    60", (0, 0)),
        (163, "    61", (9, 163)),
        (529, "     1", (9, 529)),
        (529, "     3", (9, 529)),
        (535, "     0", (9, 535)),
        (535, "     1", (0, 0)),
        (535, "     3", (9, 535)),
        (541, "     5", (9, 541)),
        (541, "      ", (6, 546)),
        (811, "     2", (9, 811)),
        (811, "    -1", (9, 811)),
        (811, "    -0", (0, 0)),
        (853, "     2", (9, 853)),
        (859, "     0", (7, 859)),
        (859, "  2049", (7, 859)),
        (859, "    2 ", (6, 864)),
    ]);
}

#[test]
fn reals() {
    check_rows(&[
        (169, "   ", (6, 192)),
        // The third digit of an exponent.
        (505, "1.0D+001", (6, 512)),
        (505, "1D99", (0, 0)),
        (505, "1D-99", (0, 0)),
        (547, "                        ", (6, 570)),
        (715, "                   1.D+9", (7, 715)),
        (595, "                  1.D-10", (8, 595)),
        (739, "                   1.D+9", (7, 739)),
        (763, "       123456789.1234567", (8, 763)),
        (763, "                    -99.", (0, 0)),
        (787, "                  -0D-99", (0, 0)),
        (787, "                   1.D-9", (9, 787)),
        (787, "                   1.D+9", (7, 787)),
        (787, "                  1.D-10", (8, 787)),
        (787, "                        ", (6, 810)),
    ]);
}

/// 02, request 4 (READINGS-02, 4.4, 4.5): fifteen decimals in the wide fields, six in the spacings.
/// Corners are 600 to 630 and 900 to 960, spacings 30.
#[test]
fn reals_without_a_point() {
    check_rows(&[
        (547, "                     600", (8, 547)),
        (547, "     600000000000000000 ", (0, 0)),
        (547, "000000600000000000000000", (0, 0)),
        (547, "6D17                    ", (0, 0)),
        (547, "   600000000000000D+03  ", (0, 0)),
        (547, "              600000E+12", (0, 0)),
        (547, "                    6D16", (0, 0)),
        (547, "                   63D16", (10, 547)),
        (571, "                    96D1", (8, 571)),
        (571, "                   96D16", (10, 547)),
        (643, "                   -1D24", (7, 643)),
        (715, "                     1D5", (8, 715)),
        (691, "      600000001000000000", (0, 0)),
        (739, "                     -99", (8, 739)),
        (739, "      -99000000000000000", (0, 0)),
        (763, "                    1D23", (0, 0)),
        (763, "                    1D24", (7, 763)),
        // No angle of 1 is left: too fine before it is wrong.
        (787, "                       1", (8, 787)),
        (787, "                      90", (8, 787)),
        (787, "                     1D5", (8, 787)),
        (787, "                     1D6", (9, 787)),
        (787, "                   90D15", (9, 787)),
        (787, "        1000000000000000", (9, 787)),
        (787, "                    1D24", (7, 787)),
        (787, "                      00", (0, 0)),
        (787, "                    0D99", (0, 0)),
        (817, "          30", (7, 817)),
        (817, "    30000000", (0, 0)),
        (817, "30000000    ", (0, 0)),
        (817, "  300000E+02", (0, 0)),
        (817, "  300000E+01", (0, 0)),
        (817, "  300000E+00", (7, 817)),
        (817, "  3000000E+0", (0, 0)),
        (817, "        3D-9", (8, 817)),
        (817, "        1D-3", (7, 817)),
        (817, "        1D-4", (8, 817)),
        (829, "        1D14", (7, 829)),
        (829, "        1D15", (7, 829)),
        (829, "  9999000000", (10, 817)),
        (829, "        6D+7", (0, 0)),
        (829, " 10000000000", (7, 829)),
        (841, "           1", (7, 841)),
        (841, "     1000000", (0, 0)),
        (841, "  100000E+01", (0, 0)),
        (841, "       10000", (0, 0)),
        (841, "       15000", (7, 841)),
        (841, "     1010000", (7, 841)),
        (841, "        5D-5", (8, 841)),
        // Form only, so these notice nothing.
        (169, "                       1", (0, 0)),
        (193, "999999999999999999999999", (0, 0)),
    ]);
    // All reals at once, each in another way, and the header is the same.
    let mut block = paper_header();
    for (first, text) in [
        (547, "      600000000000000000"),
        (571, "9D17                    "),
        (595, "+600000000000000D+03    "),
        (619, "  000960000000000000E+03"),
        (643, "                  630E15"),
        (667, "000000960000000000000000"),
        (691, "     63000000000000000D1"),
        (715, " 90000000000000000000D-2"),
        (739, "                    9D15"),
        (763, "       12000000000000000"),
        (787, "                       0"),
        (817, "  300000E+02"),
        (829, "30000000    "),
        (841, " 001000000  "),
    ] {
        put(&mut block, first, text);
    }
    assert_eq!(check(&block), check(&paper_header()));
}

#[test]
fn spacings() {
    check_rows(&[
        (817, "         0.0", (7, 817)),
        (817, "        29.5", (7, 817)),
        (817, "      10000.", (7, 817)),
        (817, "        -30.", (7, 817)),
        (817, "      1.D-10", (8, 817)),
        (817, "        1.E1", (0, 0)),
        (829, "       1.D+9", (7, 829)),
        (829, "            ", (6, 840)),
        (841, "0.01        ", (0, 0)),
        (841, "0.015       ", (7, 841)),
        (841, "1.01        ", (7, 841)),
        (841, "0.00        ", (7, 841)),
        (841, "-.10        ", (7, 841)),
    ]);
    for (text, expected) in [("0.1", Ok(())), ("0.15", Err((7, 841))), ("1.0", Ok(()))] {
        let mut block = paper_header();
        put(&mut block, 535, "     1");
        put(&mut block, 841, &format!("{text:12}"));
        assert_eq!(check(&block).map(|_| ()), expected, "feet, {text}");
    }
}

#[test]
fn whole_record_rules_in_their_order() {
    check_rows(&[
        // The west corners as far east as the east ones, or farther.
        (547, "                    630.", (10, 547)),
        (595, "                    631.", (10, 547)),
        (571, "                    960.", (10, 547)),
        (715, "                    960.", (10, 547)),
        (859, "     3", (10, 859)),
        (817, "          1.", (0, 0)),
    ]);
    // 2048 columns are the most: from 600 on, to 600 + 2047 spacings of 30.
    let wide = |east: &str, n: &str| {
        let mut block = paper_header();
        put(&mut block, 643, &format!("{east:24}"));
        put(&mut block, 859, n);
        check(&block).map(|header| header.columns().count())
    };
    assert_eq!(wide("62010.", "  2048"), Ok(2048));
    assert_eq!(wide("62010D15", "  2048"), Ok(2048));
    assert_eq!(wide("62039.999999999", "  2048"), Ok(2048));
    assert_eq!(wide("62040.", "     1"), Err((10, 817)));
    assert_eq!(wide("62040D15", "     1"), Err((10, 817)));
    assert_eq!(wide("62009.999999999", "  2048"), Err((10, 859)));
    assert_eq!(wide("62040.", "  2049"), Err((7, 859)));
}

#[test]
fn no_multiple_between_the_corners() {
    let mut block = paper_header();
    for (first, x) in [(547, "601."), (595, "601."), (643, "629."), (691, "629D15")] {
        put(&mut block, first, &format!("{x:24}"));
    }
    assert_eq!(check(&block), Err((10, 817)));
    put(&mut block, 547, &format!("{:24}", "600."));
    put(&mut block, 859, "     1");
    assert_eq!(check(&block).map(|header| header.cells()), Ok(3));
}

#[test]
fn the_first_fault_by_byte_is_told() {
    let mut block = paper_header();
    let marks = [
        (859, "  2049", (7, 859)),
        (763, "X", (6, 763)),
        (547, "-1.D9                   ", (7, 547)),
        (151, "     9", (9, 151)),
        (40, "\t", (5, 1)),
    ];
    for (first, text, expected) in marks {
        put(&mut block, first, text);
        assert_eq!(check(&block), Err(expected));
    }
}

#[test]
fn other_lengths_and_what_is_asked_of_no_rule() {
    let block = paper_header();
    for length in [0, 1, 143, 144, 1023, 1025, 2048] {
        let mut other = block.clone();
        other.resize(length, b' ');
        assert_eq!(check(&other), Err((1, 0)));
        assert_eq!(origin(&other), 0);
        assert_eq!(name_length(&other), 0);
    }
    assert_eq!(origin(&block), 5);
    assert_eq!(name_length(&block), 23);
}

#[test]
fn origins() {
    let known = ["MAC ", "GPM2", "MCMC", "RMMC", "WMC ", "FS  "];
    for (place, code) in known.iter().enumerate() {
        let mut block = vec![0; 1024];
        put(&mut block, 141, code);
        assert_eq!(origin(&block), place as u32 + 1);
    }
    for code in [
        "mac ", " MAC", "MAC\0", "GPM1", "FS", "    ", "FS Z", "XMC ",
    ] {
        let mut block = paper_header();
        put(&mut block, 141, code);
        assert_eq!(origin(&block), 0, "{code}");
    }
}

#[test]
fn names() {
    let mut block = paper_header();
    put(&mut block, 1, &" ".repeat(60));
    assert_eq!(name_length(&block), 0);
    put(&mut block, 41, "BEHIND THE NAME");
    assert_eq!(name_length(&block), 0);
    put(&mut block, 3, "x");
    assert_eq!(name_length(&block), 3);
    block[39] = 0;
    assert_eq!(name_length(&block), 40);
}
