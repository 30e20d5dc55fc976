//! The Load button's state and lines, as the runs against it expect them.

use second::button::line::{self, Line};
use second::button::state::{spoilt, State};
use second::button::{sheet, Sheet, FEWEST_BLOCKS};
use second::dice::Dice;
use second::family::{CANADIAN, USGS};
use second::kept::{self, DONE, HELD};
use second::load::{deliver, Answer, Session};
use second::sheets::shapes::small_plan;

fn small_sheet(dice: &mut Dice) -> Sheet {
    let blocks = small_plan(dice).blocks(dice);
    Sheet::of(blocks)
}

/// The frames of a line; the last may be cut.
fn frames(line: &Line) -> Vec<(u32, Vec<u8>)> {
    let whole = line.bytes.chunks(1028).filter(|frame| frame.len() >= 4);
    let split = |frame: &[u8]| {
        let number = u32::from_be_bytes(frame[..4].try_into().unwrap());
        (number, frame[4..].to_vec())
    };
    whole.map(split).collect()
}

#[test]
fn a_state_is_read_back() {
    let dice = &mut Dice::new(5);
    let sheet = small_sheet(dice);
    for taken in 0..=sheet.text.len() {
        let state = State::of(USGS, &sheet.text[..taken]);
        assert_eq!(state.taken(), taken);
        assert!(state.sum_is_that_of_the_cells());
        assert_eq!(State::read(&state.bytes()), Some(state));
    }
}

/// One written before sessions kept a sum, or a family, says that it has fewer numbers.
#[test]
fn a_state_of_fewer_numbers_is_none_of_ours() {
    let sheet = small_sheet(&mut Dice::new(7));
    let state = State::of(USGS, &sheet.text);
    assert_eq!(state.bytes()[8..12], [0, 0, 0, 39]);
    for count in [37, 38] {
        let numbers = state.numbers[..count].to_vec();
        let cells = state.cells.clone();
        let older = State { numbers, cells }.bytes();
        assert_eq!(older[8..12], [0, 0, 0, count as u8]);
        assert_eq!(State::read(&older), None);
    }
}

#[test]
fn no_spoilt_state_is_the_state() {
    let sheet = small_sheet(&mut Dice::new(6));
    let state = State::of(USGS, &sheet.text);
    for (what, bytes) in spoilt(&state) {
        assert_ne!(bytes, state.bytes(), "{what}");
        assert_ne!(State::read(&bytes), Some(state.clone()), "{what}");
    }
}

#[test]
fn a_poor_line_is_answered_as_the_loader_here_answers_it() {
    for seed in 0..200 {
        let dice = &mut Dice::new(seed);
        let sheet = small_sheet(dice);
        let before = dice.size(0, sheet.text.len());
        let (mut session, mut grid) = (Session::fresh(), vec![0; 100]);
        for (number, block) in sheet.text[..before].iter().enumerate() {
            deliver(&mut session, number as u32, block, &mut grid);
        }
        let line = line::poor(dice, &sheet, before);
        let mut told = String::new();
        for (number, bytes) in frames(&line) {
            if let Answer::Refused(refusal) = deliver(&mut session, number, &bytes, &mut grid) {
                told += &refusal.line();
            }
        }
        assert_eq!(told, line.refusals);
        assert_eq!(session.taken(), line.taken);
        assert!(line.output().starts_with(&told));
    }
}

/// The same for the first blocks of a Canadian sheet, whose line never comes to its end.
#[test]
fn a_poor_line_of_a_canadian_sheet() {
    for seed in 0..6 {
        let dice = &mut Dice::new(seed);
        let sheet = Sheet::broken_off(dice);
        assert!(sheet.reach > 64 && !sheet.whole());
        let before = *dice.pick(&[0, 0, 1, 9, sheet.reach]);
        let state = State::of(CANADIAN, &sheet.text[..before]);
        assert_eq!((state.taken(), state.numbers[38]), (before, 1));
        let mut numbers = state.numbers;
        let mut grid = vec![0; 1_442_401];
        grid[..state.cells.len()].copy_from_slice(&state.cells);
        let line = line::poor(dice, &sheet, before);
        let mut told = String::new();
        for (number, bytes) in frames(&line) {
            let answer = kept::deliver(&mut numbers, number, &bytes, &mut grid);
            if ![DONE, HELD].contains(&answer.result) {
                let kept::Told {
                    result,
                    block,
                    byte,
                } = answer;
                told += &format!("refused {result} {block} {byte}\n");
            }
        }
        assert_eq!(told, line.refusals);
        assert_eq!(numbers[20], line.taken as i64);
        assert_eq!(line.output(), format!("{told}unfinished {}\n", line.taken));
        let after = State::of(CANADIAN, &sheet.text[..line.taken]);
        assert_eq!(numbers, after.numbers);
    }
}

#[test]
fn the_sheets_of_the_run_are_long_enough() {
    for number in 0..6 {
        let (_, sheet) = sheet(1, number);
        assert!(sheet.text.len() >= FEWEST_BLOCKS);
        assert_eq!(line::good(&sheet, 0).output(), sheet.lines);
    }
}
