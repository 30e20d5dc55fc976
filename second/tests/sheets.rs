//! That what is called a valid header or sheet is one, that every number reads back
//! from every hand, and that scripts are made the same again from the same seed.

mod common;

use common::demand_the_same_again;
use second::block::{HUNDREDTH, UNIT};
use second::dice::Dice;
use second::load::{deliver, Answer, Session};
use second::meaning::{sum_of_cells, VOID_CELL};
use second::number;
use second::record_a;
use second::replay;
use second::scripts;
use second::sheets::{hand, head, plan, posts, Plan};

#[test]
fn numbers_read_back_from_every_hand() {
    let mut dice = Dice::new(1);
    for _ in 0..30_000 {
        let value = dice.between(-99_999, 99_999);
        assert_eq!(
            number::integer(&hand::integer(&mut dice, value)).kind_and_value(),
            (0, value)
        );
        let digits = 10_i64.pow(dice.size(0, 15) as u32);
        let scale = 10_i64.pow(dice.size(0, 3) as u32);
        let value = dice.between(-digits, digits) * scale;
        if value.abs() < 1_000_000_000 * UNIT {
            let text = hand::real(&mut dice, value, 24);
            assert_eq!(
                number::real(&text).kind_and_value(),
                (0, value),
                "{}",
                text.escape_ascii()
            );
        }
        for value in [
            dice.between(1, 9999) * UNIT,
            dice.between(1, 100) * HUNDREDTH,
        ] {
            let text = hand::real(&mut dice, value, 12);
            assert_eq!(
                (text.len(), number::real(&text).kind_and_value()),
                (12, (0, value))
            );
        }
    }
}

#[test]
fn valid_headers_are_valid_and_of_the_size_asked_for() {
    let mut dice = Dice::new(2);
    for _ in 0..8_000 {
        let (columns, rows) = (dice.between(1, 2048), *dice.pick(&[1, 2, 2047, 2048]));
        let head = head::head(&mut dice, columns, rows);
        let header = record_a::check(&head.block(&mut dice)).expect("valid");
        let (xs, ys) = (header.columns(), header.rows());
        assert_eq!((xs.count(), ys.count()), (columns, rows));
        assert_eq!((xs.start(), ys.start()), (head.west, head.south));
        assert_eq!(header, head.numbers);
    }
}

/// The cells a plan stands for, worked out from the plan and not from its blocks.
fn cells_of(plan: &Plan) -> Vec<i32> {
    let mut cells = vec![VOID_CELL; plan.cells()];
    for (place, run) in plan.runs.iter().enumerate() {
        let column = plan.first_column + place as i64;
        for (step, &post) in run.posts.iter().enumerate() {
            let cell = column * plan.head.rows + run.row + step as i64;
            if post != -32767 {
                let hundredths = post * plan.head.numbers.z_spacing / HUNDREDTH + run.datum;
                cells[cell as usize] = hundredths as i32;
            }
        }
    }
    cells
}

/// The sum of the heights a plan stands for: scaled and moved by the datum all at once.
fn sum_of(plan: &Plan) -> i64 {
    let step = plan.head.numbers.z_spacing / HUNDREDTH;
    let mut sum = 0;
    for run in &plan.runs {
        let filled: Vec<i64> = run.posts.iter().copied().filter(|&p| p != -32767).collect();
        sum += step * filled.iter().sum::<i64>() + run.datum * filled.len() as i64;
    }
    sum
}

fn load_whole(dice: &mut Dice, plan: &Plan) {
    let (mut session, mut grid) = (Session::fresh(), vec![7; plan.cells() + 1]);
    for (number, block) in plan.blocks(dice).iter().enumerate() {
        assert_eq!(session.awaits(), Some(block.record));
        let answer = deliver(&mut session, number as u32, &block.bytes, &mut grid);
        assert_eq!(answer, Answer::Taken);
    }
    assert_eq!(session.awaits(), None);
    assert_eq!(grid.pop(), Some(7));
    assert_eq!(grid, cells_of(plan));
    let filled = grid.iter().filter(|&&cell| cell != VOID_CELL).count();
    assert_eq!(session.figures().filled, filled);
    assert_eq!(session.figures().sum, sum_of(plan));
    assert_eq!(sum_of_cells(&grid), sum_of(plan));
    let posts: usize = plan.runs.iter().map(|run| run.posts.len()).sum();
    assert_eq!(session.figures().posts, posts);
}

#[test]
fn valid_sheets_load_as_the_cells_they_were_planned_with() {
    let mut dice = Dice::new(3);
    for _ in 0..600 {
        let (columns, rows) = (dice.between(1, 8), dice.between(1, 12));
        let small = plan(&mut dice, columns, rows);
        load_whole(&mut dice, &small);
    }
    for rows in posts::LENGTHS {
        for columns in 1..=3 {
            let long = plan(&mut dice, columns, rows);
            load_whole(&mut dice, &long);
        }
    }
}

#[test]
fn a_script_is_the_same_whenever_it_is_made() {
    demand_the_same_again(scripts::FAMILIES, |number| scripts::make(5, number));
}

#[test]
fn whole_sheets_are_taken_whole() {
    let mut dice = Dice::new(4);
    for family in scripts::FAMILIES {
        if family.name.starts_with("whole sheets") {
            for _ in 0..30 {
                let outcome = replay::run(&family.make.script(&mut dice).bytes);
                let (last, others) = outcome.events.split_last().expect("never empty");
                assert!(others.iter().all(|event| event.answer == Answer::Taken));
                assert!(last.answer == Answer::Taken || last.awaited.is_none());
            }
        }
    }
}
