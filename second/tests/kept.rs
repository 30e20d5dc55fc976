//! Sessions as numbers: the paper's sheet after each block, soundness clause by clause on
//! sessions that are right but for one number, and deliveries to sessions no line brought.

mod common;

use common::{
    demand_all_seen, numbers_after, paper_blocks, place, put, statistics, told, with, PAPER_CELLS,
    VOID,
};
use second::block::{HUNDREDTH, UNIT};
use second::crafted::{self, sessions};
use second::dice::Dice;
use second::family::{CANADIAN, USGS};
use second::kept::clauses::{broken, clauses_of, is_real, NEGATIVE, TOO_FEW};
use second::kept::{blocks_of, deliver, sound, Kept, Told, DONE, HELD, NUMBERS};
use second::presses;
use std::collections::BTreeSet;

/// The numbers after the first blocks of the paper's sheet, and the grid.
fn after(taken: usize) -> (Vec<i64>, Vec<i32>) {
    numbers_after(&paper_blocks()[..taken], 8)
}

#[test]
fn numbers_of_the_papers_sheet() {
    let units = |values: &[i64]| values.iter().map(|value| value * UNIT).collect();
    let corners: Vec<i64> = units(&[600, 900, 600, 960, 630, 960, 630, 900]);
    let header = [
        &[1, 1, 17, 2, 2][..],
        &corners,
        &[9 * UNIT, 12 * UNIT, 0, 30 * UNIT, 30 * UNIT, UNIT, 2],
    ];
    let header = header.concat();
    // Taken, closed, posts, filled, low, high; the sum.
    let counts = [
        ([1, 0, 0, 0, 0, 0], 0),
        ([2, 1, 3, 2, 1000, 1200], 2200),
        ([3, 2, 5, 4, 900, 1200], 4200),
    ];
    for (before, (counts, sum)) in counts.iter().enumerate() {
        let (numbers, _) = after(before + 1);
        assert_eq!(numbers[..20], header);
        assert_eq!(numbers[20..26], *counts);
        assert_eq!(numbers[26..37], [0; 11]);
        assert_eq!(numbers[37..], [*sum, 0]);
    }
    assert_eq!(after(3).1, [&PAPER_CELLS[..], &[7, 7]].concat());
}

#[test]
fn the_papers_report() {
    let report = |numbers: &[i64]| sound(numbers).expect("sound").report();
    let lines = "sheet 3 2 30 30 1.00\nposts 5 void 1\nrange 9.00 12.00\nend 3\n";
    assert_eq!(report(&after(3).0), Some(lines.to_string()));
    for taken in 0..3 {
        assert_eq!(report(&after(taken).0), None);
    }
    // Extremes of nothing are zeros, whatever stands there.
    let void = with(&after(3).0, &[("filled", 0), ("low", -5), ("sum", 0)]);
    let lines = report(&void).expect("complete");
    assert!(lines.contains("posts 5 void 5\nrange 0.00 0.00\n"));
}

/// An answer that leaves numbers and grid as they were.
fn refusal_after(taken: usize, number: u32, block: &[u8], lent: usize) -> Told {
    let (mut numbers, mut grid) = after(taken);
    let before = (numbers.clone(), grid.clone());
    let answer = deliver(&mut numbers, number, block, &mut grid[..lent]);
    assert_ne!(answer.result, DONE);
    assert_eq!((numbers, grid), before);
    answer
}

#[test]
fn the_order_of_the_answers() {
    let blocks = paper_blocks();
    assert_eq!(refusal_after(1, 9, &blocks[1][1..], 0), told(1, 9, 0));
    assert_eq!(refusal_after(1, 0, &blocks[0], 0), told(HELD, 0, 0));
    assert_eq!(refusal_after(1, 2, &blocks[1], 0), told(3, 2, 0));
    assert_eq!(refusal_after(3, 3, &blocks[0], 0), told(4, 3, 0));
    assert_eq!(refusal_after(3, 4, &blocks[0], 0), told(3, 4, 0));
    assert_eq!(refusal_after(1, 1, &blocks[2], 5), told(12, 1, 0));
    assert_eq!(refusal_after(1, 1, &blocks[2], 6), told(9, 1, 7));
    assert_eq!(refusal_after(0, 0, &blocks[1], 0), told(9, 0, 145));
    assert_eq!(refusal_after(0, 0, &blocks[0], 5), told(12, 0, 0));
    assert_eq!(
        refusal_after(0, u32::MAX, &blocks[0], 8),
        told(3, u32::MAX, 0)
    );
}

#[test]
fn unsound_comes_after_the_length_and_before_all_else() {
    let unsound = with(&after(1).0, &[("taken", 3)]);
    let block = &paper_blocks()[1];
    for number in [0, 1, 2, 3, u32::MAX] {
        for numbers in [&unsound[..], &unsound[..38], &[]] {
            let mut numbers = numbers.to_vec();
            let before = numbers.clone();
            let answer = deliver(&mut numbers, number, block, &mut []);
            assert_eq!(answer, told(2, number, 0));
            let answer = deliver(&mut numbers, number, &block[1..], &mut []);
            assert_eq!((answer, numbers), (told(1, number, 0), before));
        }
    }
}

#[test]
fn numbers_past_the_session_stay() {
    let (mut numbers, mut grid) = (vec![0; NUMBERS + 2], vec![0; 6]);
    numbers[NUMBERS..].copy_from_slice(&[i64::MIN, 5]);
    let answer = deliver(&mut numbers, 0, &paper_blocks()[0], &mut grid);
    assert_eq!(answer, told(DONE, 0, 0));
    assert_eq!(numbers[..NUMBERS], after(1).0);
    assert_eq!(numbers[NUMBERS..], [i64::MIN, 5]);
}

#[test]
fn a_record_c_finishes_the_sheet() {
    let (mut numbers, mut grid) = after(3);
    numbers[place("accuracy")] = 1;
    assert!(!sound(&numbers).expect("sound").complete());
    let block = statistics([1, 2, 3, 4, 5, 0, 0, 0, 0, 0]);
    let expected = with(&numbers, &[("taken", 4), ("finished", 1)]);
    assert_eq!(
        deliver(&mut numbers, 3, &block, &mut grid),
        told(DONE, 0, 0)
    );
    assert_eq!(numbers, expected);
    assert!(sound(&numbers).expect("sound").complete());
}

#[test]
fn a_void_post_makes_its_cell_void() {
    let (mut numbers, _) = after(1);
    let mut grid = vec![7; 6];
    let answer = deliver(&mut numbers, 1, &paper_blocks()[1], &mut grid);
    assert_eq!(
        (answer.result, grid),
        (DONE, vec![1000, VOID, 1200, 7, 7, 7])
    );
}

/// A session of two profiles of 400 rows, inside the second with 146 posts read.
fn inside() -> Vec<i64> {
    let numbers = with(
        &after(1).0,
        &[
            ("NW y", 900 * UNIT + 399 * 30 * UNIT),
            ("NE y", 2000 * UNIT),
        ],
    );
    with(
        &numbers,
        &[
            ("taken", 3),
            ("closed", 1),
            ("posts", 147),
            ("filled", 2),
            ("open posts", 147),
            ("open read", 146),
        ],
    )
}

#[test]
fn a_profile_is_named_by_its_first_block() {
    let mut block = vec![b' '; 1024];
    put(&mut block, 1, "     5");
    let mut grid = vec![VOID; 800];
    let stated = [("open least", 5 * UNIT), ("open greatest", 5 * UNIT)];
    let sheets = [("least", 0), ("greatest", 5 * UNIT)];
    let numbers = with(&with(&inside(), &stated), &sheets);
    assert_eq!(broken(&numbers), [""; 0]);
    for (name, kind, first, byte) in [
        ("open least", 11, 2, 97),
        ("open greatest", 11, 2, 121),
        ("least", 11, 0, 739),
        ("greatest", 11, 0, 763),
    ] {
        let mut wrong = with(&numbers, &[(name, HUNDREDTH)]);
        let answer = deliver(&mut wrong, 3, &block, &mut grid);
        assert_eq!(answer, told(kind, first, byte), "{name}");
        assert!(grid.iter().all(|&cell| cell == VOID));
    }
    let mut right = numbers.clone();
    assert_eq!(deliver(&mut right, 3, &block, &mut grid).result, DONE);
    assert_eq!(grid[400 + 146], 500);
    let changes = [("taken", 4), ("closed", 2), ("posts", 148), ("filled", 3)];
    let mut expected = with(&with(&numbers, &changes), &[("high", 500), ("sum", 500)]);
    expected[28..37].fill(0);
    assert_eq!(right, expected);
}

/// One session for each clause that breaks it and no other, and one that just does not.
#[test]
fn both_sides_of_the_clauses_on_counts() {
    let open = inside();
    let closed = after(3).0;
    let sides: [(&[i64], &str, i64, i64); 18] = [
        (&open, "taken", 3, 2),
        (&open, "taken", 15, 16),
        (&open, "posts", 147, 146),
        (&open, "posts", 2048 + 146, 2048 + 147),
        (&open, "filled", 147, 148),
        (&open, "open filled", 146, 147),
        (&open, "open posts", 400, 401),
        (&open, "open posts", 147, 146),
        (&open, "open row", 400 - 147, 400 - 146),
        (&open, "open datum", 1_000_000, 1_000_001),
        (&open, "open datum", -1_000_000, -1_000_001),
        (&open, "open read", 146, 145),
        (&open, "column", 0, 1),
        (&open, "high", 4_276_700, 4_276_701),
        (&open, "low", -4_276_700, -4_276_701),
        (&open, "closed", 1, 2),
        (&closed, "finished", 0, 1),
        (&closed, "profiles", 2, 1),
    ];
    for (numbers, name, good, bad) in sides {
        assert_eq!(broken(&with(numbers, &[(name, good)])), [""; 0], "{name}");
        assert!(!broken(&with(numbers, &[(name, bad)])).is_empty(), "{name}");
    }
    assert_eq!(broken(&open[..38]), [TOO_FEW]);
    for name in ["column", "open row", "open filled", "finished"] {
        assert_eq!(broken(&with(&after(1).0, &[(name, -1)])), [NEGATIVE]);
    }
}

#[test]
fn what_no_clause_speaks_of_is_free() {
    let numbers = with(
        &after(1).0,
        &[
            ("column", i64::MAX),
            ("low", i64::MAX),
            ("high", i64::MIN),
            ("open row", i64::MAX),
            ("open datum", i64::MIN),
            ("open least", i64::MIN),
            ("open read", i64::MAX),
            ("open filled", i64::MAX),
            ("open low", 1),
        ],
    );
    assert_eq!(broken(&numbers), [""; 0]);
    // But a fresh session is all zeros.
    assert!(broken(&with(&[0; NUMBERS], &[("open low", 1)]).to_vec()).len() > 1);
}

#[test]
fn reals_of_fifteen_digits() {
    let greatest = 999_999_999_999_999_000;
    for good in [0, 1, -1, 999_999_999_999_999, greatest, -greatest] {
        assert!(is_real(good), "{good}");
    }
    let size = 1_000_000_000_000_000_000;
    for bad in [
        size,
        -size,
        1_000_000_000_000_001,
        greatest + 1,
        i64::MIN,
        i64::MAX,
    ] {
        assert!(!is_real(bad), "{bad}");
    }
}

#[test]
fn blocks_of_a_profile() {
    for (posts, blocks) in common::PROFILES {
        assert_eq!(blocks_of(posts as i64), blocks as i64);
    }
}

#[test]
fn numbers_and_sessions_say_the_same() {
    let mut dice = Dice::new(6);
    for _ in 0..2_000 {
        let kept = sessions::any(&mut dice);
        let numbers = kept.numbers();
        assert_eq!(broken(&numbers), [""; 0], "{numbers:?}");
        assert_eq!(Kept::of(&numbers), kept);
    }
}

#[test]
fn a_delivery_leaves_a_sound_session_sound() {
    let mut dice = Dice::new(7);
    let mut seen = BTreeSet::new();
    for family in crafted::FAMILIES {
        if family.name == "the largest sheet" {
            continue;
        }
        let mut left = 1_500;
        (family.make)(&mut dice, &mut |made| {
            if left > 0 {
                left -= 1;
                let after = made.delivery.leaves();
                seen.insert(after.told.result);
                let sound = broken(&after.numbers).is_empty();
                assert_eq!(sound, broken(&made.delivery.numbers).is_empty());
            }
        });
    }
    let all = (0..=12).chain([15, HELD]).collect();
    demand_all_seen(all, &seen);
}

/// Numbers stepped from block to block, and numbers read off the joined text; the sum of
/// the sheet's cells too is held against the text's on the way.
#[test]
fn steps_lead_to_what_the_blocks_mean() {
    let mut deliveries = 0;
    presses::all(&mut Dice::new(8), &mut |delivery, left| {
        assert_eq!(delivery.leaves(), left);
        deliveries += 1;
    });
    assert!(deliveries > 3_000);
}

#[test]
fn every_clause_has_a_name_of_its_own() {
    for family in [USGS, CANADIAN] {
        let names: BTreeSet<&str> = clauses_of(family).map(|&(name, _)| name).collect();
        assert_eq!(names.len(), clauses_of(family).count());
    }
}
