//! Deliveries to the plain loader: the paper's sheet, the order of the kinds, records B
//! and C on blocks that are right but for one thing, and the customer's accident.

mod common;

use common::{
    after, blocks_before_statistics, column_blocks, column_header, demand_the_papers_sheet,
    paper_blocks, paper_header, put, statistics, PAPER_CELLS, PROFILES,
};
use second::block::{HUNDREDTH, UNIT};
use second::dice::Dice;
use second::load::{deliver, Answer, Session};
use second::meaning::Refusal;
use second::profile::elevation;
use second::scripts::accident;
use second::sheets::paper_plan;

const ROOM: usize = 8;

fn refused(kind: u32, block: u32, byte: u32) -> Answer {
    Answer::Refused(Refusal { kind, block, byte })
}

/// The answer to `bytes` after the first blocks of the paper's sheet; a refusal must
/// leave all as it was.
fn answer_after(taken: usize, number: u32, bytes: &[u8], lent: usize) -> Answer {
    let (mut session, mut grid) = after(&paper_blocks()[..taken], ROOM);
    let before = (session.clone(), grid.clone());
    let answer = deliver(&mut session, number, bytes, &mut grid[..lent]);
    if answer != Answer::Taken {
        assert_eq!((session, grid), before);
    }
    answer
}

#[test]
fn the_papers_sheet() {
    demand_the_papers_sheet(&paper_blocks());
}

#[test]
fn the_papers_sheet_in_any_hand() {
    for seed in 0..300 {
        let mut dice = Dice::new(seed);
        let plan = paper_plan(&mut dice);
        let blocks: Vec<Vec<u8>> = plan
            .blocks(&mut dice)
            .into_iter()
            .map(|b| b.bytes)
            .collect();
        let (session, grid) = after(&blocks, ROOM);
        assert_eq!(grid[..6], PAPER_CELLS);
        assert_eq!(session.figures().posts, 5);
    }
}

#[test]
fn cells_after_each_block() {
    let blocks = paper_blocks();
    let void = i32::MIN;
    assert_eq!(after(&blocks[..0], ROOM).1, [7; ROOM]);
    assert_eq!(
        after(&blocks[..1], ROOM).1,
        [void, void, void, void, void, void, 7, 7]
    );
    let (session, grid) = after(&blocks[..2], ROOM);
    assert_eq!(grid, [1000, void, 1200, void, void, void, 7, 7]);
    assert_eq!((session.figures().posts, session.figures().filled), (3, 2));
}

#[test]
fn kinds_in_their_order() {
    let blocks = paper_blocks();
    let whole = &blocks[1];
    let junk = vec![b'X'; 1024];
    assert_eq!(answer_after(1, 0, &whole[..1023], ROOM), refused(1, 0, 0));
    assert_eq!(answer_after(1, 9, &[], 0), refused(1, 9, 0));
    assert_eq!(answer_after(1, 0, &junk, 0), Answer::Held);
    assert_eq!(answer_after(3, 2, &junk, 0), Answer::Held);
    assert_eq!(answer_after(1, 2, &junk, 0), refused(3, 2, 0));
    assert_eq!(answer_after(0, 1, &junk, 0), refused(3, 1, 0));
    assert_eq!(answer_after(3, u32::MAX, &junk, 0), refused(3, u32::MAX, 0));
    assert_eq!(answer_after(3, 3, &junk, 0), refused(4, 3, 0));
    assert_eq!(answer_after(1, 1, &junk, 5), refused(12, 1, 0));
    assert_eq!(answer_after(1, 1, &junk, 6), refused(6, 1, 1));
    assert_eq!(answer_after(0, 0, &junk, 0), refused(6, 0, 145));
    assert_eq!(answer_after(0, 0, &blocks[0], 5), refused(12, 0, 0));
    assert_eq!(answer_after(0, 0, &blocks[0], 6), Answer::Taken);
}

/// The answer to the paper's first profile with these texts put into it.
fn first_profile_with(texts: &[(usize, &str)]) -> Answer {
    let mut block = paper_blocks()[1].clone();
    for &(first, text) in texts {
        put(&mut block, first, text);
    }
    answer_after(1, 1, &block, ROOM)
}

#[test]
fn fields_of_a_profile() {
    for (first, text, kind) in [
        (1, "     2", 9),
        (7, "     2", 9),
        (7, "     0", 9),
        (13, "     0", 7),
        (13, "  2049", 7),
        (19, "     0", 9),
        (25, "1.D9 ", 7),
        (49, "1.D-9", 10),
        (49, ".1D-9", 8),
        (73, "10000.01", 7),
        (73, "0.001", 7),
        (73, ".1D-9", 8),
        (121, "1.D9", 7),
        (145, "-32768", 7),
        (151, " 32768", 7),
        (163, "     1", 5),
    ] {
        let answer = first_profile_with(&[(first, text)]);
        assert_eq!(answer, refused(kind, 1, first as u32), "{text} at {first}");
    }
    // Of wrong form, so counted on to the very byte (READINGS-02, 6.4, 6.5).
    for (first, text, byte) in [
        (1, "1     ", 2),
        (13, "      ", 18),
        (25, "6OO.0", 26),
        (97, "1.0d1", 100),
        (157, "    1 ", 162),
    ] {
        let answer = first_profile_with(&[(first, text)]);
        assert_eq!(answer, refused(6, 1, byte), "{text} at {first}");
    }
    assert_eq!(first_profile_with(&[(1024, "X")]), refused(5, 1, 163));
    // The fourth post is blank: its last byte.
    assert_eq!(first_profile_with(&[(13, "     4")]), refused(6, 1, 168));
    assert_eq!(first_profile_with(&[(13, "     2")]), refused(5, 1, 157));
}

/// 02, request 4: fifteen decimals in each of the five reals, which stand left in their fields
/// here; x is 600, y 900, the datum 0, the extremes 10 and 12.
#[test]
fn a_profile_without_points() {
    let with = |first: usize, text: &str| {
        let field = format!("{text:24}");
        first_profile_with(&[(first, &field)])
    };
    for (first, text) in [
        (25, "6D17"),
        (25, "000000600000000000000000"),
        (25, "600000000000000000"),
        (49, "+900000000000000D+03"),
        (49, "            900000E+12"),
        (73, "-0D-99"),
        (73, "0"),
        (97, "1D16"),
        (97, "     10000000000000000"),
        (121, "12000000000000000"),
        (121, "12E15"),
    ] {
        assert_eq!(with(first, text), Answer::Taken, "{text} at {first}");
    }
    for (first, text, kind) in [
        (25, "600", 8),
        (25, "1D24", 7),
        (25, "1D+9", 10),
        (25, "63D16", 10),
        (49, "900", 8),
        (49, "-1D24", 7),
        (49, "93D16", 10),
        (73, "1", 8),
        (73, "1D12", 7),
        (73, "10000000000000000001", 8),
        (73, "10000010000000000000", 7),
        (73, "1D24", 7),
        (97, "10", 8),
        (97, "1D15", 11),
        (97, "1D24", 7),
        (121, "12", 8),
        (121, "12D16", 11),
        (121, "1D24", 7),
    ] {
        let answer = with(first, text);
        assert_eq!(answer, refused(kind, 1, first as u32), "{text} at {first}");
    }
    // 10,000 up, a hundredth up, 10,000 down, 2.5 up.
    for (datum, least, greatest) in [
        ("10000000000000000000", "1001D16", "10012D15"),
        ("1D13", "1001D13", "12010000000000000"),
        ("-1D19", "-9990D15", "-9988000000000000000"),
        ("25D14", "125D14", "145D14"),
    ] {
        let stated = [datum, least, greatest]
            .map(|text| format!("{text:24}"))
            .concat();
        assert_eq!(
            first_profile_with(&[(73, &stated)]),
            Answer::Taken,
            "{datum}"
        );
    }
}

#[test]
fn places_of_a_profile() {
    assert_eq!(first_profile_with(&[(25, "630.0")]), refused(10, 1, 25));
    assert_eq!(first_profile_with(&[(25, "570.0")]), refused(10, 1, 25));
    assert_eq!(
        first_profile_with(&[(25, "600.000000001")]),
        refused(10, 1, 25)
    );
    assert_eq!(first_profile_with(&[(49, "930.0")]), refused(10, 1, 49));
    assert_eq!(first_profile_with(&[(49, "901.0")]), refused(10, 1, 49));
    assert_eq!(
        first_profile_with(&[(25, "1.0  "), (49, "1.0  ")]),
        refused(10, 1, 25)
    );
    // Posts and the rest of the block come before the places, closing after them.
    assert_eq!(
        first_profile_with(&[(25, "1.0  "), (1024, "X")]),
        refused(5, 1, 163)
    );
    assert_eq!(
        first_profile_with(&[(49, "1.0  "), (97, "99.0")]),
        refused(10, 1, 49)
    );
}

#[test]
fn a_second_profile_stands_right_beside_the_first() {
    let mut header = paper_header();
    put(&mut header, 643, &format!("{:24}", "690."));
    let mut blocks = paper_blocks();
    blocks[0] = header;
    let answer_at = |first_x: &str, second_x: &str| {
        let (mut session, mut grid) = (Session::fresh(), [7; 20]);
        let mut blocks = blocks.clone();
        put(&mut blocks[1], 25, &format!("{first_x:24}"));
        put(&mut blocks[2], 25, &format!("{second_x:24}"));
        deliver(&mut session, 0, &blocks[0], &mut grid);
        let first = deliver(&mut session, 1, &blocks[1], &mut grid);
        (first, deliver(&mut session, 2, &blocks[2], &mut grid))
    };
    let taken = Answer::Taken;
    assert_eq!(answer_at("660.", "690."), (taken, taken));
    assert_eq!(answer_at("66D16", "690000000000000D+03"), (taken, taken));
    assert_eq!(answer_at("690.", "690.").0, refused(10, 1, 25));
    assert_eq!(answer_at("600.", "660."), (taken, refused(10, 2, 25)));
    assert_eq!(answer_at("630.", "63D16"), (taken, refused(10, 2, 25)));
}

#[test]
fn closing_rules() {
    assert_eq!(first_profile_with(&[(97, "9.99")]), refused(11, 1, 97));
    assert_eq!(
        first_profile_with(&[(97, "9.99"), (121, "1.99")]),
        refused(11, 1, 97)
    );
    assert_eq!(
        first_profile_with(&[(121, "12.000000001")]),
        refused(11, 1, 121)
    );
    for (first, text) in [(739, "8.0"), (763, "13.0")] {
        let mut blocks = paper_blocks();
        put(&mut blocks[0], first, &format!("{text:24}"));
        let (mut session, mut grid) = after(&blocks[..2], ROOM);
        let answer = deliver(&mut session, 2, &blocks[2], &mut grid);
        assert_eq!(answer, refused(11, 0, first as u32));
        // Block 0 was taken, so sending it right does not help.
        assert_eq!(
            deliver(&mut session, 0, &paper_header(), &mut grid),
            Answer::Held
        );
        // The profile's own extremes come first.
        put(&mut blocks[2], 121, &format!("{:24}", "11.5"));
        let answer = deliver(&mut session, 2, &blocks[2], &mut grid);
        assert_eq!(answer, refused(11, 2, 121));
    }
}

#[test]
fn a_profile_of_voids_states_zeros() {
    let voids = [(145, "-32767-32767-32767")];
    assert_eq!(first_profile_with(&voids), refused(11, 1, 97));
    let stated = |least: &'static str| {
        let zero = "                     0.0";
        first_profile_with(&[voids[0], (97, least), (121, zero)])
    };
    assert_eq!(stated("                  -0D-99"), Answer::Taken);
    assert_eq!(stated("                  1.D-09"), refused(11, 1, 97));
    assert_eq!(stated("                     1D6"), refused(11, 1, 97));
}

#[test]
fn record_c() {
    let blocks = blocks_before_statistics();
    let answer_to = |bytes: &[u8]| {
        let (mut session, mut grid) = after(&blocks, ROOM);
        assert!(!session.sheet().expect("block 0 is taken").complete());
        deliver(&mut session, 3, bytes, &mut grid)
    };
    for (numbers, expected) in [
        ([0, 0, 0, 0, 0, 0, 0, 0, 0, 0], Answer::Taken),
        ([1, 5, 0, 999_999, 28, 0, 0, 0, 0, 0], Answer::Taken),
        ([2, 0, 0, 0, 0, 0, 0, 0, 0, 0], refused(9, 3, 1)),
        ([-1, 0, 0, 0, 0, 0, 0, 0, 0, 0], refused(9, 3, 1)),
        ([0, 1, -1, 0, 0, 0, 0, 0, 0, 0], refused(9, 3, 7)),
        ([0, 0, -1, 0, 0, 0, 0, 0, 0, 0], refused(7, 3, 13)),
        ([1, 0, 0, 0, -1, 0, 0, 0, 0, 0], refused(7, 3, 25)),
        ([1, 1, 1, 1, 1, 0, 0, 0, 0, 1], refused(9, 3, 55)),
        ([1, 1, 1, 1, 1, 3, 0, 0, 0, 1], refused(9, 3, 31)),
    ] {
        assert_eq!(answer_to(&statistics(numbers)), expected, "{numbers:?}");
    }
    let mut block = statistics([0; 10]);
    put(&mut block, 13, "    -0");
    assert_eq!(answer_to(&block), Answer::Taken);
    put(&mut block, 1024, "X");
    assert_eq!(answer_to(&block), refused(5, 3, 61));
    // The blank behind the digit (READINGS-02, 6.4).
    put(&mut block, 55, "0     ");
    assert_eq!(answer_to(&block), refused(6, 3, 56));
}

#[test]
fn edge_example_of_a_post() {
    assert_eq!(elevation(125, UNIT / 10, 25 * UNIT / 10), Some(1500));
    assert_eq!(elevation(-32767, UNIT / 100, UNIT), None);
    assert_eq!(elevation(-32766, UNIT, -10_000 * UNIT), Some(-4_276_600));
    assert_eq!(elevation(32767, UNIT, 10_000 * UNIT), Some(4_276_700));
    assert_eq!(elevation(-1, HUNDREDTH, 0), Some(-1));
}

#[test]
fn blocks_of_profiles_of_every_length() {
    let header = column_header(500, 500);
    for (posts, count) in PROFILES {
        let blocks = column_blocks(&vec![5; posts], 0, 500, 500);
        assert_eq!(blocks.len(), count);
        let (mut session, mut grid) = after(&[&header], 2048);
        for (place, block) in blocks.iter().enumerate() {
            let number = place as u32 + 1;
            assert_eq!(
                deliver(&mut session, number, block, &mut grid),
                Answer::Taken
            );
            let read = if place == 0 { 146 } else { 146 + 170 * place };
            assert_eq!(session.figures().posts, read.min(posts));
            assert_eq!(session.figures().sum, 500 * read.min(posts) as i64);
            assert_eq!(session.figures().closed, usize::from(place + 1 == count));
        }
        assert!(grid[..posts].iter().all(|&cell| cell == 500));
        assert!(grid[posts..].iter().all(|&cell| cell == i32::MIN));
        assert!(session.sheet().expect("taken").complete());
    }
}

#[test]
fn the_customers_accident_moves_no_post() {
    for seed in 0..6 {
        let mut dice = Dice::new(seed);
        let plan = accident::plan(&mut dice);
        let sixth = accident::sixth_block(&plan, 0);
        let blocks = plan.blocks(&mut dice);
        let (mut calm, mut dropped) = (Session::fresh(), Session::fresh());
        let mut calm_grid = vec![7; plan.cells()];
        let mut dropped_grid = calm_grid.clone();
        for (number, block) in blocks.iter().enumerate() {
            let answer = deliver(&mut calm, number as u32, &block.bytes, &mut calm_grid);
            assert_eq!(answer, Answer::Taken);
            let number = number as u32;
            let answer = deliver(&mut dropped, number, &block.bytes, &mut dropped_grid);
            assert_eq!(answer, Answer::Taken);
            if number as usize == sixth {
                let again = deliver(&mut dropped, number, &block.bytes, &mut dropped_grid);
                assert_eq!(again, Answer::Held);
            }
        }
        assert_eq!(calm, dropped);
        assert_eq!(calm_grid, dropped_grid);
        assert!(calm.sheet().expect("taken").complete());
    }
}
