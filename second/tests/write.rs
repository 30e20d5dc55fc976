//! The writer: its numbers, the paper's sheet, every field it writes anew, its refusals
//! in their order, and that what it writes reads back.

mod common;

use common::{after, paper_header, put, PAPER_CELLS, PROFILES, VOID};
use second::block::{HUNDREDTH, UNIT};
use second::dice::Dice;
use second::number;
use second::paper;
use second::record_a;
use second::sheets::head;
use second::write::{block_count, sheet_blocks, write_block, Written};
use second::written;

fn text(field: Vec<u8>) -> String {
    String::from_utf8(field).expect("fields are plain text")
}

#[test]
fn integers_are_right_justified() {
    for (value, expected) in [
        (0, "     0"),
        (7, "     7"),
        (-7, "    -7"),
        (-32767, "-32767"),
        (2048, "  2048"),
    ] {
        assert_eq!(text(written::integer(value)), expected);
    }
}

#[test]
fn reals_in_their_one_spelling() {
    for (billionths, expected) in [
        (0, "   0.000000000000000D+00"),
        (428_400 * UNIT, "   0.428400000000000D+06"),
        (-428_399 * UNIT, "  -0.428399000000000D+06"),
        (549_498_713_000_000, "   0.549498713000000D+06"),
        (1, "   0.100000000000000D-08"),
        (-1, "  -0.100000000000000D-08"),
        (UNIT / 2, "   0.500000000000000D+00"),
        (5 * HUNDREDTH, "   0.500000000000000D-01"),
        (UNIT, "   0.100000000000000D+01"),
        (999_999_999_999_999_000, "   0.999999999999999D+09"),
        (-123_456_789_012_345, "  -0.123456789012345D+06"),
        (-42_767 * UNIT, "  -0.427670000000000D+05"),
    ] {
        assert_eq!(text(written::real(billionths)), expected);
    }
}

#[test]
fn spacings_in_their_one_spelling() {
    for (billionths, expected) in [
        (30 * UNIT, "0.300000E+02"),
        (9999 * UNIT, "0.999900E+04"),
        (UNIT, "0.100000E+01"),
        (UNIT / 10, "0.100000E+00"),
        (99 * HUNDREDTH, "0.990000E+00"),
        (HUNDREDTH, "0.100000E-01"),
    ] {
        assert_eq!(text(written::spacing(billionths)), expected);
    }
}

/// No two texts for one number: a first digit that is not 0, and all that was said.
#[test]
fn written_numbers_read_back() {
    let mut dice = Dice::new(1);
    for _ in 0..30_000 {
        let digits = 10_i64.pow(dice.size(0, 15) as u32);
        let value = dice.between(1 - digits, digits - 1) * 10_i64.pow(dice.size(0, 3) as u32);
        let field = written::real(value);
        assert_eq!(
            (field.len(), number::real(&field).kind_and_value()),
            (24, (0, value))
        );
        let first = field
            .iter()
            .position(|&byte| byte == b'.')
            .expect("a point")
            + 1;
        assert_eq!(field[first] == b'0', value == 0);
        let value = dice.between(-99_999, 999_999);
        let field = written::integer(value);
        assert_eq!(
            (field.len(), number::integer(&field).kind_and_value()),
            (6, (0, value))
        );
    }
    for units in 1..=9999 {
        let field = written::spacing(units * UNIT);
        assert_eq!(
            (field.len(), number::real(&field).kind_and_value()),
            (12, (0, units * UNIT))
        );
    }
}

#[test]
fn the_papers_cells_give_the_papers_bytes() {
    let template = &paper::blocks()[0];
    let blocks = sheet_blocks(template, &PAPER_CELLS).expect("sent");
    assert_eq!(blocks.concat(), paper::sheet());
    assert_eq!(block_count(template, &PAPER_CELLS), Ok(3));
}

/// Every numeric field in another hand, and n, accuracy and extremes of another sheet.
fn odd_template() -> Vec<u8> {
    let mut block = paper_header();
    put(&mut block, 1, "~ODD, IN ANY HAND");
    put(&mut block, 145, "  +002  0001    +1000017");
    put(&mut block, 169, "1D99                    ");
    put(&mut block, 505, "            999999999999");
    put(&mut block, 529, "000002    +2  0004");
    put(&mut block, 547, "600.                    ");
    put(&mut block, 571, "9.D2                    ");
    put(&mut block, 595, "            +600.0000000");
    put(&mut block, 739, "-5.                     ");
    put(&mut block, 763, "1.D-9                   ");
    put(&mut block, 787, "-0D-99                  ");
    put(&mut block, 811, "    +1");
    put(&mut block, 817, "30.         3.D1        .1E1        ");
    put(&mut block, 853, "000001    +1");
    put(&mut block, 865, "LATER, [KEPT]");
    put(&mut block, 1020, "KEPT!");
    block
}

/// The same with every real that is written anew without a point (02, request 4). Its extremes
/// are other ones than the cells have, as above.
fn template_without_points() -> Vec<u8> {
    let mut block = odd_template();
    put(&mut block, 547, "6D17                    ");
    put(&mut block, 571, "      900000000000000000");
    put(&mut block, 595, "   600000000000000D+03  ");
    put(&mut block, 619, "000000960000000000000000");
    put(&mut block, 643, "      +63000000000000E+4");
    put(&mut block, 667, "96E16                   ");
    put(&mut block, 691, " 63000000000000000000D-2");
    put(&mut block, 715, "      900000000000000000");
    put(&mut block, 739, "       -5000000000000000");
    put(&mut block, 763, "                     1D6");
    put(&mut block, 787, "                      00");
    put(&mut block, 817, "  300000E+02    30000000100000E+01  ");
    assert!(block[546..852].iter().all(|&byte| byte != b'.'));
    block
}

/// READINGS-02, 4.7: what is sent always has a point.
#[test]
fn a_template_without_points_is_sent_with_them() {
    let template = template_without_points();
    let block = write_block(&template, &PAPER_CELLS, 0, 1024).expect("sent");
    assert_eq!(field(&template, 817, 12), "  300000E+02");
    assert_eq!(
        field(&block, 817, 36),
        "0.300000E+020.300000E+020.100000E+01"
    );
    let odd = write_block(&odd_template(), &PAPER_CELLS, 0, 1024).expect("sent");
    assert_eq!(block[..], odd[..]);
    let sheet = sheet_blocks(&template, &PAPER_CELLS).expect("sent");
    assert_eq!(sheet[1..].concat(), paper::sheet()[1024..]);
    // 3 and not 3,000,000: eleven columns of 21 rows.
    let mut finer = template.clone();
    put(&mut finer, 817, "  300000E+01  300000E+01");
    let cells = vec![VOID; 11 * 21];
    let block = write_block(&finer, &cells, 0, 1024).expect("sent");
    assert_eq!(field(&block, 817, 24), "0.300000E+010.300000E+01");
    assert_eq!(field(&block, 859, 6), "    11");
    assert_eq!(write_block(&finer, &cells[1..], 0, 1024), Err((12, 0)));
    // Whole numbers once, now too fine or out of range.
    for (first, text, refusal) in [
        (547, "600                     ", (8, 547)),
        (817, "30          ", (7, 817)),
        (841, "1           ", (7, 841)),
    ] {
        let mut template = odd_template();
        put(&mut template, first, text);
        assert_eq!(write_block(&template, &PAPER_CELLS, 0, 1024), Err(refusal));
    }
}

#[test]
fn block_0_is_the_template_with_its_numbers_written_anew() {
    let template = odd_template();
    let block = write_block(&template, &PAPER_CELLS, 0, 1024).expect("sent");
    let mut expected = paper::blocks()[0].clone();
    put(&mut expected, 145, "     2");
    expected[..144].copy_from_slice(&template[..144]);
    expected[168..528].copy_from_slice(&template[168..528]);
    expected[864..].copy_from_slice(&template[864..]);
    assert_eq!(block[..], expected);
}

#[test]
fn writing_twice_changes_nothing_more() {
    let first = sheet_blocks(&odd_template(), &PAPER_CELLS).expect("sent");
    let again = sheet_blocks(&first[0], &PAPER_CELLS).expect("sent");
    assert!(first == again);
}

fn field(block: &[u8], first: usize, width: usize) -> &str {
    let bytes = &block[first - 1..first - 1 + width];
    std::str::from_utf8(bytes).expect("plain text")
}

#[test]
fn a_void_column_is_one_void_post_at_row_0() {
    let cells = [VOID, VOID, VOID, VOID, 0, VOID];
    let blocks = sheet_blocks(&paper_header(), &cells).expect("sent");
    assert_eq!(field(&blocks[1], 1, 24), "     1     1     1     1");
    assert_eq!(field(&blocks[1], 49, 24), "   0.900000000000000D+03");
    let zero = "   0.000000000000000D+00";
    assert_eq!(field(&blocks[1], 97, 48), zero.repeat(2));
    assert_eq!(field(&blocks[1], 145, 880).trim_end(), "-32767");
    assert_eq!(field(&blocks[2], 49, 24), "   0.930000000000000D+03");
    assert_eq!(field(&blocks[2], 145, 880).trim_end(), "     0");
    let nothing = sheet_blocks(&paper_header(), &[VOID; 6]).expect("sent");
    assert_eq!(nothing.len(), 3);
    assert_eq!(field(&nothing[0], 739, 48), zero.repeat(2));
}

/// A template for one column of `rows` rows, x and y from 0 in steps of one.
fn one_column(rows: usize) -> Vec<u8> {
    let mut block = paper_header();
    for (place, x) in [(0, "0"), (2, "0"), (4, "0.5"), (6, "0.5")] {
        put(&mut block, 547 + place * 24, &format!("{x:24}"));
    }
    let north = format!("{}.5", rows - 1);
    for (place, y) in [(1, "0"), (3, &north), (5, &north), (7, "0")] {
        put(&mut block, 547 + place * 24, &format!("{y:24}"));
    }
    put(&mut block, 817, "1.          1.          1.          ");
    put(&mut block, 859, "     1");
    block
}

#[test]
fn blocks_of_profiles() {
    for (posts, count) in PROFILES {
        let template = one_column(posts);
        let mut cells = vec![500; posts];
        assert_eq!(block_count(&template, &cells), Ok(1 + count as u32));
        let last = write_block(&template, &cells, count as u32, 1024).expect("sent");
        assert_eq!(
            last.iter().rposition(|&byte| byte == b'5'),
            Some(last_byte(posts) - 1)
        );
        if posts > 1 {
            cells[posts - 1] = VOID;
            let shorter = sheet_blocks(&template, &cells).expect("sent");
            assert_eq!(field(&shorter[1], 13, 6), format!("{:6}", posts - 1));
        }
    }
}

/// Where the last post of a profile ends in its block, counted from 1.
fn last_byte(posts: usize) -> usize {
    if posts <= 146 {
        144 + posts * 6
    } else {
        (posts - 146 - 1) % 170 * 6 + 6
    }
}

#[test]
fn heights_at_the_limits() {
    let (template, feet) = (one_column(2), tenths_of_feet());
    let answer = |template: &[u8], cells: &[i32]| block_count(template, cells);
    for (template, step) in [(&template, 100), (&feet, 10)] {
        assert_eq!(answer(template, &[-32766 * step, 32767 * step]), Ok(2));
        assert_eq!(answer(template, &[0, -32767 * step]), Err((13, 1)));
        assert_eq!(answer(template, &[32768 * step, 1]), Err((13, 0)));
        assert_eq!(answer(template, &[step, step + 1]), Err((13, 1)));
        assert_eq!(answer(template, &[-step, 1 - step]), Err((13, 1)));
        assert_eq!(answer(template, &[VOID, i32::MAX]), Err((13, 1)));
        assert_eq!(answer(template, &[VOID + 1, VOID]), Err((13, 0)));
        assert_eq!(answer(template, &[0, 0, 1, VOID + 1]), Ok(2));
    }
}

/// One column of two rows, heights in tenths of a foot.
fn tenths_of_feet() -> Vec<u8> {
    let mut block = one_column(2);
    put(&mut block, 535, "     1");
    put(&mut block, 841, ".1          ");
    block
}

#[test]
fn refusals_in_their_order() {
    let good = paper_header();
    let mut bad = paper_header();
    put(&mut bad, 859, "     3");
    let unfit = [1; 6];
    let answer = |template: &[u8], cells: &[i32], number, lent| {
        write_block(template, cells, number, lent).map(|_| ())
    };
    assert_eq!(answer(&[], &[], 9, 1023), Err((1, 0)));
    assert_eq!(answer(&[], &[], 9, 1025), Err((1, 0)));
    assert_eq!(answer(&good[..1023], &[], 9, 1024), Err((1, 1)));
    assert_eq!(answer(&bad, &[], 9, 1024), Err((10, 859)));
    assert_eq!(answer(&good, &[], 9, 1024), Err((12, 0)));
    assert_eq!(answer(&good, &unfit[..5], 9, 1024), Err((12, 0)));
    assert_eq!(answer(&good, &unfit, 9, 1024), Err((13, 0)));
    assert_eq!(answer(&good, &unfit, 0, 1024), Err((13, 0)));
    assert_eq!(answer(&good, &PAPER_CELLS, 3, 1024), Err((14, 3)));
    assert_eq!(answer(&good, &PAPER_CELLS, u32::MAX, 1024), Err((14, 3)));
    assert_eq!(answer(&good, &PAPER_CELLS, 2, 1024), Ok(()));
    assert_eq!(block_count(&good[1..], &unfit), Err((1, 1)));
}

#[test]
fn one_block_is_the_same_as_among_all() {
    let template = one_column(400);
    let cells: Vec<i32> = (0..400).map(|row| row * 100).collect();
    let blocks: Vec<Written> = sheet_blocks(&template, &cells).expect("sent");
    for (number, block) in blocks.iter().enumerate() {
        let alone = write_block(&template, &cells, number as u32, 1024);
        assert!(alone == Ok(*block));
    }
}

/// Block by block through the loader, into a grid with one cell more.
#[test]
fn sheets_read_back_as_the_cells_given() {
    let mut dice = Dice::new(2);
    for _ in 0..400 {
        let (columns, rows) = (dice.between(1, 6), *dice.pick(&[1, 2, 3, 9, 150, 320]));
        let head = head::head(&mut dice, columns, rows);
        let template = head.block(&mut dice);
        let header = record_a::check(&template).expect("valid");
        let step = header.step() as i32;
        let voids = *dice.pick(&[0, 10, 60, 100]);
        let mut cells = vec![VOID; header.cells()];
        for cell in &mut cells {
            if dice.between(1, 100) > voids {
                *cell = dice.between(-32766, 32767) as i32 * step;
            }
        }
        let blocks = sheet_blocks(&template, &cells).expect("sent");
        let (session, mut grid) = after(&blocks, cells.len() + 1);
        assert!(session.sheet().expect("taken").complete());
        assert_eq!(grid.pop(), Some(7));
        assert_eq!(grid, cells);
    }
}
