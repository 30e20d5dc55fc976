//! Runs a `lister` program on sheets, whole and otherwise, and compares what it writes,
//! byte for byte, with what this program's own lister says. Status 0: no difference.
//! Status 1: a difference, or too little was compared. CELLS is what the program lends,
//! 15,000 unless told otherwise. Usage: compare_lister PROGRAM [SEED] [SHEETS] [CELLS]

use second::block::USUAL_CELLS;
use second::comparing::{self, line_difference, Asked, Mismatch, Note, Wanted};
use second::lister::{self, Outcome};
use second::streams::shown::{names, shown};
use second::streams::{self, FAMILIES};

const USAGE: &str = "compare_lister PROGRAM [SEED] [SHEETS] [CELLS]";
const USUAL_SHEETS: usize = 2_300;
const FEWEST_SHEETS: usize = 1_000;
/// Blocks come under their own numbers from a fresh session, so kinds 2 and 3 cannot be.
const KINDS: [u32; 10] = [1, 4, 5, 6, 7, 8, 9, 10, 11, 12];

fn compare(asked: &Asked, number: usize) -> Result<Note, Mismatch> {
    let cells = asked.fourth.unwrap_or(USUAL_CELLS);
    let made = streams::make(asked.seed, number, cells);
    let expected = lister::list(&made.bytes, cells);
    comparing::demand_same(asked, "stream", number, &made, |found| {
        line_difference(expected.output().as_bytes(), found)
    })?;
    Ok(Note {
        family: made.family,
        outcome: outcome_name(&expected),
        shown: shown(&made.bytes, cells, &expected),
    })
}

fn outcome_name(outcome: &Outcome) -> String {
    match outcome {
        Outcome::Listed(_) => "listed".to_string(),
        Outcome::Unfinished(_) => "unfinished".to_string(),
        Outcome::Refused(refusal) => format!("refused {}", refusal.kind),
    }
}

fn wanted() -> Wanted {
    let mut outcomes = vec!["listed".to_string(), "unfinished".to_string()];
    outcomes.extend(KINDS.map(|kind| format!("refused {kind}")));
    Wanted {
        fewest: FEWEST_SHEETS,
        families: FAMILIES.iter().map(|family| family.name).collect(),
        outcomes,
        shown: names(),
    }
}

fn main() {
    let notes = comparing::notes_of(USAGE, USUAL_SHEETS, compare);
    comparing::finish(&comparing::tally(&notes, &wanted()));
}
