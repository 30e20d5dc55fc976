//! Runs a `sender` program on templates and cells, compares what it writes, byte for
//! byte, with what this program's own writer says, and reads what it sent back into
//! cells. Status 0: no difference. Status 1: a difference, or too little was compared.
//! Usage: compare_sender PROGRAM [SEED] [SHEETS]

use second::block::{BLOCK_LENGTH, USUAL_CELLS};
use second::comparing::{self, line_difference, Asked, Mismatch, Note, Wanted};
use second::lister;
use second::orders::shown::{names, shown};
use second::orders::{self, FAMILIES};
use second::sender::{self, parts_of, Outcome};
use second::turns::Made;

const USAGE: &str = "compare_sender PROGRAM [SEED] [SHEETS]";
const USUAL_SHEETS: usize = 2_500;
const FEWEST_SHEETS: usize = 2_000;
/// A differing field is shown up to here.
const SHOWN: usize = 24;

/// `sender` lends whole blocks and asks for no block past the last, so of kind 1 only
/// the template's comes up, and kind 14 never.
const OUTCOMES: [&str; 11] = [
    "sent",
    "refused 1",
    "refused 5",
    "refused 6",
    "refused 7",
    "refused 8",
    "refused 9",
    "refused 10",
    "refused 12",
    "refused 13",
    "bad input",
];

fn compare(asked: &Asked, number: usize) -> Result<Note, Mismatch> {
    let made = orders::make(asked.seed, number);
    let expected = sender::run(&made.bytes);
    comparing::demand_same(asked, "order", number, &made, |found| {
        fault_of(&made.bytes, &expected, found)
    })?;
    Ok(note(&made, &expected))
}

fn note(made: &Made, expected: &Outcome) -> Note {
    let outcome = match expected {
        Outcome::BadInput => "bad input".to_string(),
        Outcome::Refused { kind, .. } => format!("refused {kind}"),
        Outcome::Sent(_) => "sent".to_string(),
    };
    Note {
        family: made.family,
        outcome,
        shown: shown(&made.bytes, expected),
    }
}

/// What is wrong with what the program wrote, in words; None if nothing is.
fn fault_of(input: &[u8], expected: &Outcome, found: &[u8]) -> Option<String> {
    match expected {
        Outcome::Sent(_) => {
            block_difference(&expected.output(), found).or_else(|| cells_lost(input, found))
        }
        _ => line_difference(&expected.output(), found),
    }
}

/// The first byte in which two sheets differ, in words.
fn block_difference(expected: &[u8], found: &[u8]) -> Option<String> {
    if expected == found {
        return None;
    }
    let same = expected.iter().zip(found).take_while(|(a, b)| a == b);
    let place = same.count();
    let show = |bytes: &[u8]| {
        let rest = &bytes[place..];
        format!("\"{}\"", rest[..rest.len().min(SHOWN)].escape_ascii())
    };
    Some(format!(
        "block {} byte {}\nsecond  {}\nprogram {}\nbytes in all: second {}, program {}",
        place / BLOCK_LENGTH,
        place % BLOCK_LENGTH + 1,
        show(expected),
        show(found),
        expected.len(),
        found.len()
    ))
}

/// What the program sent must read back as the cells it was given.
fn cells_lost(input: &[u8], found: &[u8]) -> Option<String> {
    let given = parts_of(input).expect("a sheet was sent").cells;
    match lister::list(found, USUAL_CELLS) {
        lister::Outcome::Listed(sheet) => {
            let read = sheet.cells();
            let lost = (0..read.len()).find(|&place| read[place] != given[place])?;
            Some(format!(
                "cell {lost} was {} and reads back as {}",
                given[lost], read[lost]
            ))
        }
        other => Some(format!("what was sent reads as {}", other.output())),
    }
}

fn wanted() -> Wanted {
    Wanted {
        fewest: FEWEST_SHEETS,
        families: FAMILIES.iter().map(|family| family.name).collect(),
        outcomes: OUTCOMES.map(String::from).to_vec(),
        shown: names(),
    }
}

fn main() {
    let notes = comparing::notes_of(USAGE, USUAL_SHEETS, compare);
    comparing::finish(&comparing::tally(&notes, &wanted()));
}
