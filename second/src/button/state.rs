//! The button's state file, as the comment in `examples/load.c` lays it out: a mark, the
//! session's numbers and the cells, each with their count before them, and two sums.

use crate::kept::clauses::FURTHEST;
use crate::kept::{place, Kept, NUMBERS};
use crate::meaning::{self, sum_of_cells, Block};

const MARK: &[u8; 8] = b"DEMLOAD1";
const NUMBERS_AT: usize = 12;

#[derive(Clone, Debug, PartialEq)]
pub struct State {
    pub numbers: Vec<i64>,
    pub cells: Vec<i32>,
}

impl State {
    /// What these blocks of a sheet of this family mean, read as one text; none at all are a
    /// fresh session.
    pub fn of(family: i64, text: &[Block]) -> State {
        if text.is_empty() {
            return State {
                numbers: Kept::opened(family).numbers().to_vec(),
                cells: Vec::new(),
            };
        }
        let sheet = meaning::read_of(family, text).expect("the first blocks of a good sheet");
        State {
            numbers: Kept::after(&sheet).numbers().to_vec(),
            cells: sheet.cells(),
        }
    }

    /// What a file says, if it is a whole one.
    pub fn read(bytes: &[u8]) -> Option<State> {
        let cells_at = NUMBERS_AT + NUMBERS * 8;
        let cells = bytes.get(cells_at + 4..)?;
        let state = State {
            numbers: (0..NUMBERS)
                .map(|place| NUMBERS_AT + place * 8)
                .map(|at| i64::from_be_bytes(bytes[at..at + 8].try_into().expect("eight")))
                .collect(),
            cells: cells[..cells.len().saturating_sub(16)]
                .chunks_exact(4)
                .map(|four| i32::from_be_bytes(four.try_into().expect("four")))
                .collect(),
        };
        // There is one way to write a state, so nothing is left to be asked of the bytes.
        (state.bytes() == bytes).then_some(state)
    }

    pub fn bytes(&self) -> Vec<u8> {
        let mut bytes = MARK.to_vec();
        bytes.extend((self.numbers.len() as u32).to_be_bytes());
        bytes.extend(self.numbers.iter().flat_map(|one| one.to_be_bytes()));
        bytes.extend((self.cells.len() as u32).to_be_bytes());
        bytes.extend(self.cells.iter().flat_map(|one| one.to_be_bytes()));
        let (sum, sums) = sums_of(&bytes);
        bytes.extend(sum.to_be_bytes());
        bytes.extend(sums.to_be_bytes());
        bytes
    }

    pub fn taken(&self) -> usize {
        self.numbers[place::TAKEN] as usize
    }

    /// The cells are those of the sheet and no more, so the session's sum is theirs.
    pub fn sum_is_that_of_the_cells(&self) -> bool {
        self.numbers[place::SUM] == sum_of_cells(&self.cells)
    }
}

/// Fours of bytes added up, and the sums so far added up.
fn sums_of(bytes: &[u8]) -> (u64, u64) {
    let fours = bytes.chunks_exact(4);
    fours.fold((0, 0), |(sum, sums), four| {
        let value = u32::from_be_bytes(four.try_into().expect("four"));
        let sum: u64 = sum + u64::from(value);
        (sum, u64::wrapping_add(sums, sum))
    })
}

/// Files that are no whole state, made from one that is.
pub fn spoilt(state: &State) -> Vec<(&'static str, Vec<u8>)> {
    let whole = state.bytes();
    let changed = |at: usize| {
        let mut bytes = whole.clone();
        bytes[at] ^= 1;
        bytes
    };
    let with_numbers = |numbers: Vec<i64>| {
        let cells = state.cells.clone();
        State { numbers, cells }.bytes()
    };
    let with_cells = |cells: Vec<i32>| {
        let numbers = state.numbers.clone();
        State { numbers, cells }.bytes()
    };
    let with_number = |place: usize, number: i64| {
        let mut numbers = state.numbers.clone();
        numbers[place] = number;
        with_numbers(numbers)
    };
    let family = state.numbers[place::FAMILY];
    let too_far = state.numbers[place::FILLED] * FURTHEST + 1;
    let last_cell = whole.len() - 17;
    vec![
        ("empty", Vec::new()),
        ("cut", whole[..whole.len() - 1].to_vec()),
        ("only its mark", whole[..8].to_vec()),
        ("a byte behind", [&whole[..], b"\n"].concat()),
        ("another mark", changed(7)),
        ("a changed cell", changed(last_cell)),
        ("a changed sum", changed(whole.len() - 1)),
        ("a number fewer", with_numbers(state.numbers[1..].to_vec())),
        (
            "no sum of heights, as an older button left it",
            with_numbers(state.numbers[..place::SUM].to_vec()),
        ),
        (
            "no family, as a younger button left it",
            with_numbers(state.numbers[..place::FAMILY].to_vec()),
        ),
        (
            "a number more",
            with_numbers([&state.numbers[..], &[0]].concat()),
        ),
        ("unsound", with_number(place::TAKEN, -1)),
        (
            "unsound by the sum of heights",
            with_number(place::SUM, too_far),
        ),
        ("a family nobody knows", with_number(place::FAMILY, 2)),
        (
            "a family past 32 bits",
            with_number(place::FAMILY, family + (1 << 32)),
        ),
        ("a family below zero", with_number(place::FAMILY, -1)),
        // Of small USGS sheets unsound, of any other not the family that is asked for.
        ("the other family", with_number(place::FAMILY, 1 - family)),
        ("a cell fewer", with_cells(state.cells[1..].to_vec())),
        ("a cell more", with_cells([&state.cells[..], &[0]].concat())),
    ]
}
