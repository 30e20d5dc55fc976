//! The sum of the filled cells (02, request 1), a case for each slip that READINGS-02 names:
//! stepped from block to block, read off the joined text, added up over the sheet's cells.

mod common;

use common::{
    blocks_before_statistics, column_blocks, column_header, demand_all_seen, level_column,
    numbers_after, paper_blocks, put, statistics, told, two_hundred_posts, with, VOID,
};
use second::crafted::sums;
use second::dice::Dice;
use second::kept::clauses::{broken, SUM, TOO_FEW};
use second::kept::{self, place, sound, Told, DONE, HELD, NUMBERS};
use second::load::{self, Session};
use second::meaning::sum_of_cells;
use second::presses;
use second::scripts::accident;
use second::sheets::head;
use second::sheets::posts::OUTERMOST;
use std::collections::BTreeSet;

const NONE: [&str; 0] = [];

/// Both readings of a session, the blocks and the numbers, each with a grid of its own.
struct Both {
    text: Session,
    numbers: Vec<i64>,
    grids: [Vec<i32>; 2],
}

impl Both {
    fn fresh(cells: usize) -> Both {
        Both {
            text: Session::fresh(),
            numbers: vec![0; NUMBERS],
            grids: [vec![7; cells], vec![7; cells]],
        }
    }

    fn after(blocks: &[Vec<u8>], cells: usize) -> Both {
        let mut both = Both::fresh(cells);
        for (number, block) in blocks.iter().enumerate() {
            assert_eq!(both.deliver(number, block), told(DONE, 0, 0));
        }
        both
    }

    fn deliver(&mut self, number: usize, block: &[u8]) -> Told {
        let [of_text, of_numbers] = &mut self.grids;
        let answer = load::deliver(&mut self.text, number as u32, block, of_text);
        let answered = kept::deliver(&mut self.numbers, number as u32, block, of_numbers);
        assert_eq!(answered, presses::told(answer));
        assert_eq!(of_text, of_numbers);
        answered
    }

    /// Filled cells and their sum, on which all three readings must agree.
    fn filled_and_sum(&self) -> (i64, i64) {
        let figures = self.text.figures();
        let found = (figures.filled as i64, figures.sum);
        assert_eq!(
            (self.numbers[place::FILLED], self.numbers[place::SUM]),
            found
        );
        assert_eq!(self.text.sum_in(&self.grids[0]), figures.sum);
        found
    }
}

#[test]
fn the_papers_sheet_block_by_block() {
    let mut both = Both::fresh(8);
    assert_eq!(both.filled_and_sum(), (0, 0));
    let expected = [(0, 0), (2, 2200), (4, 4200)];
    for (number, block) in paper_blocks().iter().enumerate() {
        assert_eq!(both.deliver(number, block).result, DONE);
        assert_eq!(both.filled_and_sum(), expected[number]);
    }
}

#[test]
fn an_open_profile_counts_block_by_block() {
    let blocks = two_hundred_posts();
    let mut both = Both::after(&blocks[..2], 2048);
    // 1 + 2 + .. + 146 is 10,731.
    assert_eq!(both.filled_and_sum(), (146, 1_073_100 + 146 * 250));
    assert_eq!(both.deliver(2, &blocks[2]).result, DONE);
    // 1 + 2 + .. + 200 is 20,100.
    assert_eq!(both.filled_and_sum(), (200, 2_010_000 + 200 * 250));
}

#[test]
fn a_refused_closing_leaves_the_sum() {
    let open = (146, 1_109_600);
    for (wrong, byte) in [(1, 97), (1, 121), (0, 739), (0, 763)] {
        let mut blocks = two_hundred_posts();
        put(&mut blocks[wrong], byte, &format!("{:24}", "7.77"));
        let mut both = Both::after(&blocks[..2], 2048);
        assert_eq!(both.filled_and_sum(), open);
        let answer = both.deliver(2, &blocks[2]);
        assert_eq!(answer, told(11, wrong as u32, byte as u32));
        assert_eq!(both.filled_and_sum(), open);
    }
}

/// A block that opens and closes its profile may be corrected, and then counts once.
#[test]
fn a_corrected_block_counts_once() {
    let blocks = paper_blocks();
    let mut wrong = blocks[1].clone();
    put(&mut wrong, 97, &format!("{:24}", "9.99"));
    let mut both = Both::after(&blocks[..1], 6);
    for _ in 0..3 {
        assert_eq!(both.deliver(1, &wrong), told(11, 1, 97));
        assert_eq!(both.filled_and_sum(), (0, 0));
    }
    assert_eq!(both.deliver(1, &blocks[1]).result, DONE);
    assert_eq!(both.filled_and_sum(), (2, 2200));
}

#[test]
fn a_sum_past_32_bits() {
    let sums = [8_758_681_600, -8_758_476_800];
    for ((post, datum), whole) in OUTERMOST.into_iter().zip(sums) {
        let blocks = level_column(post, datum);
        let mut both = Both::after(&blocks[..1], 2048);
        for (place, block) in blocks[1..].iter().enumerate() {
            assert_eq!(both.deliver(place + 1, block).result, DONE);
            let read = (146 + 170 * place as i64).min(2048);
            assert_eq!(both.filled_and_sum(), (read, read * (post * 100 + datum)));
        }
        assert_eq!(both.filled_and_sum(), (2048, whole));
        assert_eq!(broken(&both.numbers), NONE);
    }
}

/// The last block of 2048 by 2048 posts, all at the one height.
#[test]
fn the_furthest_sums_there_are() {
    let dice = &mut Dice::new(9);
    let header = head::head(dice, 2048, 2048).numbers;
    let sums = [17_937_779_916_800, -17_937_360_486_400];
    for ((post, datum), sum) in OUTERMOST.into_iter().zip(sums) {
        let delivery = sums::furthest(dice, &header, post, datum);
        let left = delivery.leaves();
        assert_eq!(left.told, told(DONE, 0, 0));
        assert_eq!(left.numbers[place::SUM], sum);
        assert_eq!(left.numbers[place::FILLED], 4_194_304);
        assert_eq!(broken(&left.numbers), NONE);
    }
}

#[test]
fn voids_do_not_count() {
    let with_datum = |posts: &[i64], least: i64, greatest: i64| {
        let mut blocks = vec![column_header(least, greatest)];
        blocks.extend(column_blocks(posts, 250, least, greatest));
        Both::after(&blocks, 2048).filled_and_sum()
    };
    assert_eq!(with_datum(&[-32767; 147], 0, 0), (0, 0));
    assert_eq!(with_datum(&[10, -32767, 12], 1250, 1450), (2, 2700));
    // Filled and at zero is another thing than void.
    assert_eq!(with_datum(&[-32767, 0, -32767], 250, 250), (1, 250));
    assert_eq!(with_datum(&[-5, 0, -32767], -250, 250), (2, 0));
}

#[test]
fn held_and_refused_leave_the_sum() {
    let blocks = paper_blocks();
    let mut both = Both::after(&blocks[..2], 6);
    let mut damaged = blocks[2].clone();
    put(&mut damaged, 151, "    X9");
    for (number, block, answer) in [
        (0, &blocks[0][..], told(HELD, 0, 0)),
        (1, &blocks[1], told(HELD, 0, 0)),
        (1, &blocks[2], told(HELD, 0, 0)),
        (2, &blocks[2][..1023], told(1, 2, 0)),
        (3, &blocks[2], told(3, 3, 0)),
        (2, &blocks[1], told(9, 2, 7)),
        // The letter is the fifth byte of its post (READINGS-02, 6.5).
        (2, &damaged, told(6, 2, 155)),
    ] {
        assert_eq!(both.deliver(number, block), answer);
        assert_eq!(both.filled_and_sum(), (2, 2200));
    }
    let mut short = both.numbers.clone();
    let answer = kept::deliver(&mut short, 2, &blocks[2], &mut [0; 5]);
    assert_eq!((answer, short), (told(12, 2, 0), both.numbers.clone()));
    assert_eq!(both.deliver(2, &blocks[2]).result, DONE);
    assert_eq!(both.deliver(3, &blocks[2]), told(4, 3, 0));
    assert_eq!(both.filled_and_sum(), (4, 4200));
}

#[test]
fn a_record_c_leaves_the_sum() {
    let mut both = Both::after(&blocks_before_statistics(), 6);
    assert_eq!(both.filled_and_sum(), (4, 4200));
    let numbers = [1, 5, 0, 999_999, 28, 0, 0, 0, 0, 0];
    assert_eq!(both.deliver(3, &statistics([2; 10])), told(9, 3, 1));
    assert_eq!(both.deliver(3, &statistics(numbers)).result, DONE);
    assert_eq!(both.filled_and_sum(), (4, 4200));
}

/// The customer's accident once more: a block sent twice is added once.
#[test]
fn a_repeated_block_is_added_once() {
    let dice = &mut Dice::new(3);
    let plan = accident::plan(dice);
    let sixth = accident::sixth_block(&plan, 0);
    let mut both = Both::fresh(plan.cells());
    for (number, block) in plan.blocks(dice).iter().enumerate() {
        assert_eq!(both.deliver(number, &block.bytes).result, DONE);
        let before = both.filled_and_sum();
        if number == sixth {
            assert_eq!(both.deliver(number, &block.bytes).result, HELD);
        }
        assert_eq!(both.filled_and_sum(), before);
    }
}

#[test]
fn cells_past_the_sheet_do_not_count() {
    let both = Both::after(&paper_blocks(), 8);
    assert_eq!(both.filled_and_sum(), (4, 4200));
    assert_eq!(sum_of_cells(&both.grids[0]), 4200 + 7 + 7);
}

/// Equality with the cells needs the grid handed back; the session's own sum does not.
#[test]
fn the_sum_never_looks_at_the_grid() {
    let blocks = paper_blocks();
    let (numbers, _) = numbers_after(&blocks[..2], 6);
    for spoilt in [5, VOID, i32::MAX] {
        let (mut after, mut grid) = (numbers.clone(), vec![spoilt; 6]);
        let answer = kept::deliver(&mut after, 2, &blocks[2], &mut grid);
        assert_eq!((answer.result, after[place::SUM]), (DONE, 4200));
    }
}

/// The paper's second profile brings two cells and 2000.
#[test]
fn a_session_that_no_line_brought_goes_on_from_its_sum() {
    let blocks = paper_blocks();
    let (numbers, _) = numbers_after(&blocks[..2], 6);
    let reach = 2 * 4_276_700;
    for sum in [0, 1, -2000, reach, -reach] {
        let mut crafted = with(&numbers, &[("sum", sum)]);
        assert_eq!(broken(&crafted), NONE);
        let answer = kept::deliver(&mut crafted, 2, &blocks[2], &mut [VOID; 6]);
        assert_eq!((answer.result, crafted[place::SUM]), (DONE, sum + 2000));
        assert_eq!(broken(&crafted), NONE);
    }
    let mut nothing = with(&numbers, &[("filled", 0), ("sum", 0), ("low", 900)]);
    let answer = kept::deliver(&mut nothing, 2, &blocks[2], &mut [VOID; 6]);
    assert_eq!(answer, told(11, 0, 763));
    assert_eq!(nothing[place::SUM], 0);
}

/// What four filled cells from 9.00 to 12.00 may have for a sum, by the clause alone.
#[test]
fn both_sides_of_the_clause() {
    let (numbers, _) = numbers_after(&paper_blocks(), 6);
    for good in [0, 1, -1, 4200, 17_106_800, -17_106_800] {
        assert_eq!(broken(&with(&numbers, &[("sum", good)])), NONE, "{good}");
    }
    let far = 17_106_801;
    for bad in [far, -far, 1 << 32, i64::MAX, i64::MIN, i64::MIN + 1] {
        assert_eq!(broken(&with(&numbers, &[("sum", bad)])), [SUM], "{bad}");
    }
    // 42,949,672,960 + 4,200 is 4,200 in 32 bits.
    assert_eq!(
        broken(&with(&numbers, &[("sum", (10 << 32) + 4200)])),
        [SUM]
    );
}

#[test]
fn with_nothing_filled_the_sum_is_zero() {
    let (numbers, _) = numbers_after(&paper_blocks()[..1], 6);
    let free = with(&numbers, &[("low", i64::MAX), ("high", i64::MIN)]);
    assert_eq!(broken(&free), NONE);
    for bad in [1, -1, i64::MIN, i64::MAX] {
        assert_eq!(broken(&with(&free, &[("sum", bad)])), [SUM], "{bad}");
    }
}

#[test]
fn a_fresh_session_has_no_sum() {
    let block = &paper_blocks()[0];
    for sum in [1, -1, i64::MIN, i64::MAX, 1 << 32] {
        let mut numbers = with(&[0; NUMBERS], &[("sum", sum)]);
        let before = numbers.clone();
        let answer = kept::deliver(&mut numbers, 0, block, &mut [7; 6]);
        assert_eq!((answer, numbers), (told(2, 0, 0), before));
    }
    assert!(sound(&[0; NUMBERS]).is_some());
}

/// Products that do not fit 64 bits, or come round to 0 there, are compared like any other.
#[test]
fn any_numbers_are_answered() {
    let (numbers, _) = numbers_after(&paper_blocks(), 6);
    for filled in [6, 1 << 31, 1 << 42, 1 << 62, i64::MAX] {
        for sum in [0, 25_660_200, -25_660_200] {
            let changed = with(&numbers, &[("filled", filled), ("sum", sum)]);
            assert_eq!(broken(&changed), ["filled at most posts"], "{filled} {sum}");
        }
    }
    for sum in [i64::MIN, i64::MAX] {
        let changed = with(&numbers, &[("filled", i64::MAX), ("sum", sum)]);
        assert_eq!(broken(&changed), ["filled at most posts"]);
    }
}

/// Neither its count nor its extremes say anything about the sheet's sum, and its count may
/// be above the sheet's (READINGS 28).
#[test]
fn an_open_profile_has_no_say() {
    let (numbers, _) = numbers_after(&two_hundred_posts()[..2], 2048);
    for open_filled in [0, 2, 146] {
        for filled in [2, 146] {
            let reach = filled * 4_276_700;
            let changes = [("open filled", open_filled), ("filled", filled)];
            let open = with(&numbers, &changes);
            for (sum, expected) in [(reach, &NONE[..]), (-reach, &NONE), (reach + 1, &[SUM])] {
                assert_eq!(broken(&with(&open, &[("sum", sum)])), expected);
            }
        }
    }
}

/// As many as a session had before it kept its sum.
#[test]
fn thirty_seven_numbers_are_too_few() {
    let (numbers, _) = numbers_after(&paper_blocks()[..1], 6);
    let mut older = numbers[..37].to_vec();
    assert_eq!(broken(&older), [TOO_FEW]);
    let answer = kept::deliver(&mut older, 1, &paper_blocks()[1], &mut [VOID; 6]);
    assert_eq!((answer, &older[..]), (told(2, 1, 0), &numbers[..37]));
}

#[test]
fn crafted_sums_show_all_there_is_to_see() {
    let mut seen = BTreeSet::new();
    let mut alone = 0;
    // Few of a run's sessions have room for a sum past 32 bits.
    for seed in 4..9 {
        sums::at_their_limits(&mut Dice::new(seed), &mut |made| {
            let left = made.delivery.leaves();
            seen.extend(sums::shown(&made.delivery, &left));
            alone += usize::from(broken(&made.delivery.numbers) == [SUM]);
        });
    }
    demand_all_seen(sums::sights(), &seen);
    assert!(alone > 1_000, "{alone}");
}
