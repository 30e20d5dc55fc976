//! Runs of blocks (02, request 3): a case for each reading 3.1 to 3.9 and for each slip, with
//! answers worked out by hand from the papers; then what holds of all runs that are compared.

mod common;

use common::{
    demand_all_seen, numbers_after, ottawa, ottawa_profile, paper_blocks, place, put, real, told,
    two_hundred_posts, with, PAPER_CELLS, VOID,
};
use second::asking::Question;
use second::block::UNIT;
use second::crafted;
use second::desk::{Delivery, Left};
use second::dice::Dice;
use second::family::CANADIAN;
use second::kept::{self, Kept, DONE, HELD, NUMBERS};
use second::presses;
use second::runs::shown::{shown, sights, Look};
use second::runs::{deliver, Ended};
use second::sheets::canadian::CELLS;
use std::collections::BTreeSet;

/// No record has a rule that these bytes pass.
const UNREADABLE: [u8; 1024] = [0xFF; 1024];

/// Result, block, byte and count.
fn ended(result: u32, block: u32, byte: u32, count: u32) -> Ended {
    Ended {
        told: told(result, block, byte),
        count,
    }
}

/// The numbers after the first blocks of the paper's sheet, and the grid of 6 cells and 2 more.
fn after(taken: usize) -> (Vec<i64>, Vec<i32>) {
    numbers_after(&paper_blocks()[..taken], 8)
}

/// A run to such a session, which leaves what so many single blocks leave.
fn run_leaves(taken: usize, number: u32, bytes: &[u8], then: usize) -> Ended {
    let (mut numbers, mut grid) = after(taken);
    let ended = deliver(&mut numbers, number, bytes, &mut grid);
    assert_eq!((numbers, grid), after(then), "{ended:?}");
    ended
}

/// A run that leaves session and grid alone.
fn unchanged(numbers: &[i64], number: u32, bytes: &[u8], cells: usize) -> Ended {
    let (mut numbers_after, mut grid) = (numbers.to_vec(), vec![7; cells]);
    let ended = deliver(&mut numbers_after, number, bytes, &mut grid);
    assert_eq!((&numbers_after[..], grid), (numbers, vec![7; cells]));
    ended
}

/// Sessions to which a single delivery would answer 2 whatever else there is: block 0 taken and
/// more than there can be, families that nobody knows, a number too few, none at all.
fn unsound_sessions() -> Vec<Vec<i64>> {
    let begun = after(1).0;
    vec![
        with(&begun, &[("taken", 3)]),
        with(&begun, &[("family", 2)]),
        Kept::opened(255).numbers().to_vec(),
        begun[..NUMBERS - 1].to_vec(),
        Vec::new(),
    ]
}

/// 3.1, 3.2: the paper's sheet whole, with the cells, counts and sum that it has.
#[test]
fn a_sheet_in_one_run() {
    let (mut numbers, mut grid) = (vec![0; NUMBERS], vec![7; 8]);
    let blocks = paper_blocks().concat();
    let answer = deliver(&mut numbers, 0, &blocks, &mut grid);
    assert_eq!(answer, ended(DONE, 0, 0, 3));
    assert_eq!(grid, [&PAPER_CELLS[..], &[7, 7]].concat());
    // Taken, closed, posts, filled, low, high.
    assert_eq!(numbers[20..26], [3, 2, 5, 4, 900, 1200]);
    assert_eq!(numbers[place("sum")], 4200);
    assert!(kept::sound(&numbers).expect("sound").complete());
}

/// 3.1, 3.2: the last delivery's answer, and held blocks count.
#[test]
fn held_and_taken_in_one_run() {
    let all = paper_blocks();
    let of = |from: usize, to: usize| all[from..to].concat();
    assert_eq!(run_leaves(0, 0, &of(0, 1), 1), ended(DONE, 0, 0, 1));
    assert_eq!(run_leaves(0, 0, &of(0, 2), 2), ended(DONE, 0, 0, 2));
    assert_eq!(run_leaves(1, 0, &of(0, 1), 1), ended(HELD, 0, 0, 1));
    assert_eq!(run_leaves(1, 0, &of(0, 3), 3), ended(DONE, 0, 0, 3));
    assert_eq!(run_leaves(2, 0, &of(0, 2), 2), ended(HELD, 0, 0, 2));
    assert_eq!(run_leaves(2, 1, &of(1, 3), 3), ended(DONE, 0, 0, 2));
    assert_eq!(run_leaves(2, 2, &of(2, 3), 3), ended(DONE, 0, 0, 1));
    assert_eq!(run_leaves(3, 0, &of(0, 3), 3), ended(HELD, 0, 0, 3));
}

/// 3.3: before soundness, before held, before the blocks in front; the number is the one given.
#[test]
fn a_length_that_is_no_multiple() {
    let bytes = paper_blocks().concat();
    let mut sessions = unsound_sessions();
    sessions.extend([0, 1, 3].map(|taken| after(taken).0));
    for numbers in sessions {
        for length in [1, 1023, 1025, 2047, 2049, 3071] {
            for number in [0, 1, 2, 7, u32::MAX] {
                for cells in [0, 8] {
                    let answer = unchanged(&numbers, number, &bytes[..length], cells);
                    assert_eq!(answer, ended(1, number, 0, 0));
                }
            }
        }
    }
    // Here both whole blocks would be taken.
    let answer = unchanged(&after(1).0, 1, &bytes[1024..3071], 8);
    assert_eq!(answer, ended(1, 1, 0, 0));
}

/// 3.4: held and zero, whatever is lent; but a single delivery of nothing is refused.
#[test]
fn an_empty_run() {
    let mut sessions = unsound_sessions();
    sessions.extend((0..=3).map(|taken| after(taken).0));
    for numbers in sessions {
        for number in [0, 1, 3, 9, u32::MAX] {
            for cells in [0, 5, 8] {
                let answer = unchanged(&numbers, number, &[], cells);
                assert_eq!(answer, ended(HELD, 0, 0, 0));
            }
            let single = kept::deliver(&mut numbers.clone(), number, &[], &mut []);
            assert_eq!(single, told(1, number, 0));
        }
    }
}

/// The paper's sheet with one text of its last block replaced.
fn with_a_fault(byte: usize, text: &str) -> Vec<u8> {
    let mut blocks = paper_blocks();
    put(&mut blocks[2], byte, text);
    blocks.concat()
}

/// 3.5, 3.6: a fault in the third block of the run, and where document 01 puts it. The two
/// blocks before it stay taken.
#[test]
fn a_damaged_block_behind_others() {
    let fine = format!("{:24}", "0.0000000001");
    let astray = format!("{:24}", "631.0");
    for (byte, text, kind, named) in [
        (200, "X", 5, 157),
        // READINGS-02, 6.5, and "3 + 6": the letter itself, as for a single delivery.
        (145, "    1x", 6, 150),
        (13, "     0", 7, 13),
        (151, "-32768", 7, 151),
        (73, &fine, 8, 73),
        (7, "     3", 9, 7),
        (25, &astray, 10, 25),
    ] {
        let bytes = with_a_fault(byte, text);
        let expected = ended(kind, 2, named, 2);
        assert_eq!(run_leaves(0, 0, &bytes, 2), expected);
        assert_eq!(run_leaves(1, 0, &bytes, 2), expected);
        let behind = ended(kind, 2, named, 1);
        assert_eq!(run_leaves(1, 1, &bytes[1024..], 2), behind);
        assert_eq!(run_leaves(2, 1, &bytes[1024..], 2), behind);
        assert_eq!(
            run_leaves(2, 2, &bytes[2048..], 2),
            ended(kind, 2, named, 0)
        );
    }
}

/// 3.6: two posts filled and one void, as after the first profile alone; the right block may
/// then be sent under the same number.
#[test]
fn what_was_taken_before_a_refusal_stays() {
    let (mut numbers, mut grid) = (vec![0; NUMBERS], vec![7; 8]);
    let bytes = with_a_fault(151, "x");
    let answer = deliver(&mut numbers, 0, &bytes, &mut grid);
    assert_eq!(answer, ended(6, 2, 151, 2));
    assert_eq!(grid, [1000, VOID, 1200, VOID, VOID, VOID, 7, 7]);
    assert_eq!(numbers[20..26], [2, 1, 3, 2, 1000, 1200]);
    assert_eq!(numbers[place("sum")], 2200);
    let answer = deliver(&mut numbers, 2, &paper_blocks()[2], &mut grid);
    assert_eq!(answer, ended(DONE, 0, 0, 1));
    assert_eq!((numbers, grid), after(3));
}

/// 3.6: whatever stands behind the block refused.
#[test]
fn nothing_behind_a_refusal_is_looked_at() {
    let [header, first, second] = <[Vec<u8>; 3]>::try_from(paper_blocks()).expect("three");
    for behind in [&[][..], &first, &second, &UNREADABLE, &[b' '; 4096]] {
        let run = [&header, &second[..], behind].concat();
        // The second profile in the place of the first.
        assert_eq!(run_leaves(0, 0, &run, 1), ended(9, 1, 7, 1));
        let run = [&UNREADABLE[..], behind].concat();
        assert_eq!(run_leaves(0, 0, &run, 0), ended(5, 0, 1, 0));
    }
}

/// 3.5: two hundred posts in two blocks, from 1 with a datum of 2.50, and extremes stated wrong in
/// the profile's first block or in block 0. They are found false with the last block.
#[test]
fn kind_11_names_an_earlier_block() {
    for (wrong, byte) in [(1, 97), (1, 121), (0, 739), (0, 763)] {
        let mut blocks = two_hundred_posts();
        put(&mut blocks[wrong], byte, &real(7 * UNIT));
        // In one run; with blocks 0 and 1 held in front; with both taken by an earlier run.
        for (taken, number, count) in [(0, 0, 2), (1, 0, 2), (1, 1, 1), (2, 0, 2), (2, 2, 0)] {
            let (mut numbers, mut grid) = numbers_after(&blocks[..taken], 2048);
            let bytes = blocks[number as usize..].concat();
            let answer = deliver(&mut numbers, number, &bytes, &mut grid);
            assert_eq!(answer, ended(11, wrong as u32, byte as u32, count));
            // 146 posts: their numbers come to 10,731, and each has its datum.
            assert_eq!(numbers[20..24], [2, 0, 146, 146]);
            assert_eq!(numbers[place("sum")], 1_073_100 + 146 * 250);
            assert_eq!(grid[145..147], [14_850, VOID]);
        }
    }
    // A profile of one block is its own first block.
    let bytes = with_a_fault(97, &real(8 * UNIT));
    assert_eq!(run_leaves(0, 0, &bytes, 2), ended(11, 2, 97, 2));
}

/// 3.7: the block after the last is 4 with its own number; late ones before it count.
#[test]
fn past_the_end() {
    let mut blocks = paper_blocks();
    blocks.push(UNREADABLE.to_vec());
    let of = |from: usize| blocks[from..].concat();
    assert_eq!(run_leaves(0, 0, &of(0), 3), ended(4, 3, 0, 3));
    assert_eq!(run_leaves(2, 2, &of(2), 3), ended(4, 3, 0, 1));
    assert_eq!(run_leaves(3, 1, &of(1), 3), ended(4, 3, 0, 2));
    assert_eq!(run_leaves(3, 3, &of(3), 3), ended(4, 3, 0, 0));
}

/// 3.7: refused at once, also where the block due stands inside or the sheet is complete.
#[test]
fn a_gap() {
    let bytes = paper_blocks().concat();
    for (taken, number) in [(0, 1), (0, 2), (1, 2), (1, 3), (2, 3), (3, 4)] {
        let answer = run_leaves(taken, number, &bytes, taken);
        assert_eq!(answer, ended(3, number, 0, 0));
    }
}

/// 3.8: from numbers on which no further number stands for the blocks behind.
#[test]
fn numbers_that_leave_32_bits() {
    let bytes = [paper_blocks().concat(), paper_blocks().concat()].concat();
    for number in [u32::MAX, u32::MAX - 1, u32::MAX - 5] {
        for taken in 0..=3 {
            let answer = run_leaves(taken, number, &bytes, taken);
            assert_eq!(answer, ended(3, number, 0, 0));
        }
        for numbers in unsound_sessions() {
            let answer = unchanged(&numbers, number, &bytes, 8);
            assert_eq!(answer, ended(2, number, 0, 0));
        }
    }
}

/// 3.9, and the slip: a refusal behind held blocks alone leaves everything as it was.
#[test]
fn held_blocks_are_not_read() {
    let last = paper_blocks().remove(2);
    let run = |last: &[u8]| [&UNREADABLE[..], &[0; 1024], last].concat();
    assert_eq!(run_leaves(2, 0, &run(&last), 3), ended(DONE, 0, 0, 3));
    assert_eq!(run_leaves(3, 0, &run(&last), 3), ended(HELD, 0, 0, 3));
    assert_eq!(run_leaves(2, 0, &run(&[]), 2), ended(HELD, 0, 0, 2));
    assert_eq!(run_leaves(2, 0, &run(&UNREADABLE), 2), ended(6, 2, 1, 2));
}

/// Unsound is said of the first block: no count, and nothing behind it changes that.
#[test]
fn an_unsound_session() {
    let bytes = paper_blocks().concat();
    for numbers in unsound_sessions() {
        for number in [0, 1, 2, 3] {
            for cells in [0, 8] {
                let answer = unchanged(&numbers, number, &bytes, cells);
                assert_eq!(answer, ended(2, number, 0, 0));
            }
        }
    }
}

/// A grid too short is said of the first block that is due, and no sooner.
#[test]
fn too_few_cells() {
    let bytes = paper_blocks().concat();
    assert_eq!(unchanged(&after(0).0, 0, &bytes, 5), ended(12, 0, 0, 0));
    assert_eq!(unchanged(&after(1).0, 0, &bytes, 5), ended(12, 1, 0, 1));
    assert_eq!(unchanged(&after(2).0, 0, &bytes, 0), ended(12, 2, 0, 2));
    assert_eq!(unchanged(&after(3).0, 0, &bytes, 0), ended(HELD, 0, 0, 3));
    let behind = [&bytes[..], &bytes].concat();
    assert_eq!(unchanged(&after(3).0, 0, &behind, 0), ended(4, 3, 0, 3));
}

/// Ottawa's block 0 and the first of its profiles, 0 to 1,200 metres, in its eight blocks.
#[test]
fn a_canadian_run() {
    let posts: Vec<i64> = (0..1201).collect();
    let mut text = vec![ottawa()];
    text.extend(ottawa_profile(0, &posts, (0, 1200)));
    let fresh = Kept::opened(CANADIAN).numbers().to_vec();
    let (mut numbers, mut grid) = (fresh.clone(), vec![7; CELLS + 1]);
    let answer = deliver(&mut numbers, 0, &text.concat(), &mut grid);
    assert_eq!(answer, ended(DONE, 0, 0, 9));
    assert_eq!(numbers[20..26], [9, 1, 1201, 1201, 0, 120_000]);
    assert_eq!(numbers[37..], [72_060_000, CANADIAN]);
    assert_eq!(grid[1199..1202], [119_900, 120_000, VOID]);
    assert_eq!(grid[CELLS - 1..], [VOID, 7]);
    // A corner that disagrees, and nothing behind it is looked at; a USGS block 0.
    put(&mut text[0], 114, "31");
    let answer = unchanged(&fresh, 0, &text.concat(), 0);
    assert_eq!(answer, ended(15, 0, 110, 0));
    let answer = unchanged(&fresh, 0, &paper_blocks().concat(), 0);
    assert_eq!(answer.count, 0);
    assert_ne!(answer.told.result, HELD);
}

/// The bytes that the C side must answer: unharmed, result, numbers, cells, slots.
fn answer_bytes(result: u32, numbers: &[i64], cells: &[i32], slots: &[u64]) -> Vec<u8> {
    let mut bytes = [1, result].map(u32::to_le_bytes).concat();
    bytes.extend(numbers.iter().flat_map(|number| number.to_le_bytes()));
    bytes.extend(cells.iter().flat_map(|cell| cell.to_le_bytes()));
    bytes.extend(slots.iter().flat_map(|slot| slot.to_le_bytes()));
    bytes
}

/// Block, byte and count as far as there is room; a fourth slot stays as it was.
#[test]
fn room_for_the_answer() {
    let untouched = 0xA5A5_A5A5_A5A5_A5A5;
    let whole = paper_blocks().concat();
    let damaged = with_a_fault(151, "x");
    for (bytes, result, slots, then) in [
        (&whole[..], DONE, [0, 0, 3, untouched], 3),
        (&whole[..2048], HELD, [0, 0, 2, untouched], 2),
        (&damaged, 6, [2, 151, 2, untouched], 2),
        (&whole[..1023], 1, [0, 0, 0, untouched], 2),
        (&[], HELD, [0, 0, 0, untouched], 2),
    ] {
        for room in 0..=4 {
            let (numbers, grid) = after(2);
            let delivery = Delivery {
                numbers,
                number: 0,
                block: bytes.to_vec(),
                grid,
                room,
            };
            let call = delivery.call(&delivery.leaves_by_run());
            let (numbers, grid) = after(then);
            let answer = answer_bytes(result, &numbers, &grid, &slots[..room]);
            assert_eq!((call.sort(), call.answer_length()), (b'r', answer.len()));
            // Another answer than this one would end the program.
            call.demand_same(&answer);
        }
    }
}

/// All runs that compare_desk asks about, and the single calls between them.
fn each_run(visit: &mut dyn FnMut(Delivery, Left)) {
    crafted::runs::all(&mut Dice::new(14), &mut |delivery| {
        let left = delivery.leaves_by_run();
        visit(delivery, left);
    });
    presses::by_runs(&mut Dice::new(15), visit);
}

/// What the readings say of every run: 3.1, held never comes behind taken; 3.5, the number in a
/// refusal; 3.7, 3.8, which kinds never stand behind another block.
fn demand_what_always_holds(delivery: &Delivery, left: &Left, count: u32) {
    let blocks = (delivery.block.len() / 1024) as u32;
    let changed = left.numbers != delivery.numbers;
    match left.told.result {
        DONE => assert!(changed && count == blocks),
        HELD => assert!(!changed && count as usize * 1024 == delivery.block.len()),
        11 => assert!(count < blocks && left.told.block <= delivery.number + count),
        kind => {
            assert_eq!(left.told.block, delivery.number + count);
            assert!(count == 0 || ![1, 2, 3, 15].contains(&kind));
            assert!(!changed || kind != 12);
        }
    }
    if !changed {
        assert_eq!(left.grid, delivery.grid);
    }
}

/// And they show every slip.
#[test]
fn all_runs_that_are_compared() {
    let mut seen = BTreeSet::new();
    each_run(&mut |delivery, left| {
        if let Some(look) = Look::at(&delivery, &left) {
            seen.extend(shown(&look));
            demand_what_always_holds(&delivery, &left, left.count.expect("of a run"));
        }
    });
    demand_all_seen(sights(), &seen);
}

/// Blocks read as one text, and numbers stepped from block to block.
#[test]
fn runs_lead_to_what_the_blocks_mean() {
    let (mut runs, mut singles) = (0, 0);
    presses::by_runs(&mut Dice::new(16), &mut |delivery, left| match left.count {
        None => {
            singles += 1;
            assert_eq!(delivery.leaves(), left);
        }
        Some(_) => {
            runs += 1;
            assert_eq!(delivery.leaves_by_run(), left);
        }
    });
    assert!(runs > 2_000 && singles > 1_000, "{runs} {singles}");
}
