//! Sends Canadian sheets to the C calls, asked through PROGRAM (`examples/answers.c`): sessions
//! made up, sheets that break off, and a few whole ones, all over a poor line, by single blocks and by
//! runs. Result, every number of the session, the cells around what was brought and in the end all
//! cells must be what this program says. Status 0: no difference. Status 1: a difference, or too little was compared.
//! Usage: compare_canadian PROGRAM [SEED]

use second::asking::Asking;
use second::comparing::{arguments, finish, number};
use second::dice::Dice;
use second::family::CANADIAN;
use second::north::{answers, answers_of_runs, spots_wanted, North};
use second::north::{BROKEN_OFF, BROKEN_OFF_BY_RUNS, ENDS, WHOLE};
use second::pointless::of_sheets;

const USAGE: &str = "compare_canadian PROGRAM [SEED]";
const USUAL_SEED: u64 = 20_030_110;
const FEWEST_SHEETS: usize = 200;
const FEWEST_DELIVERIES: usize = 20_000;
const FEWEST_RUNS: usize = 2_000;

fn send_all(dice: &mut Dice, north: &mut North) {
    north.send_to_crafted(dice);
    north.send_without_points(dice);
    north.send_mistyped(dice);
    for turn in 0..BROKEN_OFF {
        north.send_broken_off(dice, turn);
    }
    for _ in 0..WHOLE {
        north.send_whole(dice);
    }
    for turn in 0..BROKEN_OFF_BY_RUNS {
        north.send_broken_off_by_runs(dice, turn);
    }
    north.send_whole_by_runs(dice);
    north.send_whole_at_once(dice);
}

fn main() {
    let given = arguments(USAGE);
    let seed = number(&given, 1, USAGE).unwrap_or(USUAL_SEED);
    println!("seed {seed}");
    let mut desk = Asking::of(&given[0]).unwrap_or_else(|fault| finish(&[fault]));
    let dice = &mut Dice::new(seed);
    let mut ask = |call| desk.ask(call);
    let mut north = North::open(&mut ask);
    send_all(dice, &mut north);
    let North {
        answers: met,
        runs,
        ends,
        pointless,
        spots,
        spots_of_runs,
        ..
    } = north;
    println!("deliveries {}", met.all());
    met.print("answers", &answers());
    runs.print("runs", &answers_of_runs());
    ends.print("sheets", &ENDS);
    pointless.print("reals without a point", &of_sheets(CANADIAN));
    spots.print("wrong form, single blocks", &spots_wanted());
    spots_of_runs.print("wrong form, runs", &spots_wanted());
    let mut found = met.never_seen(&answers());
    found.extend(pointless.never_seen(&of_sheets(CANADIAN)));
    found.extend(spots.never_seen(&spots_wanted()));
    let unseen = spots_of_runs.never_seen(&spots_wanted());
    found.extend(unseen.iter().map(|name| format!("in runs, {name}")));
    found.extend(runs.answers.never_seen(&answers_of_runs()));
    found.extend(ends.never_seen(&ENDS));
    if ends.all() < FEWEST_SHEETS {
        found.push(format!("fewer than {FEWEST_SHEETS} sheets"));
    }
    if met.all() < FEWEST_DELIVERIES {
        found.push(format!("fewer than {FEWEST_DELIVERIES} deliveries"));
    }
    if runs.answers.all() < FEWEST_RUNS {
        found.push(format!("fewer than {FEWEST_RUNS} runs"));
    }
    desk.hold_against_answers();
    desk.end(found)
}
