//! Valid sheets, as numbers and as blocks, in every shape document 01 permits; and
//! damage to their blocks.

pub mod aimed;
pub mod canadian;
pub mod damage;
pub mod hand;
pub mod head;
pub mod posts;
pub mod shapes;

pub use crate::block::put;
use crate::block::{Record, BLOCK_LENGTH, HUNDREDTH, INTEGER_WIDTH, REAL_WIDTH, UNIT};
use crate::dice::Dice;
use crate::profile::{FIRST_POST, POSTS_OF_FIRST_BLOCK, POSTS_OF_FURTHER_BLOCK, VOID_POST};
use crate::record_a::Header;
use head::Head;
use posts::Run;

/// A sheet whose stated extremes are worked out when its blocks are written.
#[derive(Clone, Debug)]
pub struct Plan {
    pub head: Head,
    pub first_column: i64,
    pub runs: Vec<Run>,
    /// The ten numbers of record C; only sent with accuracy 1.
    pub statistics: [i64; 10],
}

/// A block and the record it belongs to.
#[derive(Clone, Debug)]
pub struct Sent {
    pub record: Record,
    pub bytes: Vec<u8>,
}

/// A sheet of `columns` × `rows`, its profiles of any length up to the rows.
pub fn plan(dice: &mut Dice, columns: i64, rows: i64) -> Plan {
    let mut head = head::head(dice, columns, rows);
    if dice.one_in(2) {
        head.numbers.n = columns;
    }
    let n = head.numbers.n;
    let runs = (0..n).map(|_| posts::run(dice, rows)).collect();
    let room = columns - n;
    let any = dice.between(0, room);
    Plan {
        first_column: *dice.pick(&[0, any, room]),
        runs,
        statistics: statistics(dice),
        head,
    }
}

/// A sheet whose profiles all have `length` posts.
pub fn plan_with_length(dice: &mut Dice, columns: i64, rows: i64, length: i64) -> Plan {
    let mut plan = plan(dice, columns, rows);
    for run in &mut plan.runs {
        *run = posts::run_of(dice, rows, length);
    }
    plan
}

/// The sheet of document 01, "The lister, and one sheet".
pub fn paper_plan(dice: &mut Dice) -> Plan {
    let of = |values: [i64; 8]| values.map(|value| value * UNIT);
    let mut head = head::head(dice, 2, 3);
    head.numbers = Header {
        system: 1,
        zone: 17,
        ground_unit: 2,
        vertical_unit: 2,
        corners: of([600, 900, 600, 960, 630, 960, 630, 900]),
        x_spacing: 30 * UNIT,
        y_spacing: 30 * UNIT,
        z_spacing: UNIT,
        accuracy: 0,
        n: 2,
        ..head.numbers
    };
    head.west = 600 * UNIT;
    head.south = 900 * UNIT;
    let run = |row, posts: &[i64]| Run {
        row,
        datum: 0,
        posts: posts.to_vec(),
    };
    Plan {
        head,
        first_column: 0,
        runs: vec![run(0, &[10, VOID_POST, 12]), run(1, &[11, 9])],
        statistics: [0; 10],
    }
}

/// Two groups of code, three errors and a count; zeros under code 0.
pub fn statistics(dice: &mut Dice) -> [i64; 10] {
    let mut numbers = [0; 10];
    for group in numbers.chunks_mut(5) {
        let code = dice.between(0, 1);
        for number in group.iter_mut() {
            let any = dice.between(0, 999_999);
            *number = code * *dice.pick(&[0, 1, any, 999_999]);
        }
        group[0] = code;
    }
    numbers
}

impl Plan {
    pub fn cells(&self) -> usize {
        self.head.cells()
    }

    /// All blocks of the sheet, each number in any of its spellings.
    pub fn blocks(&self, dice: &mut Dice) -> Vec<Sent> {
        let mut sent = vec![Sent {
            record: Record::Header,
            bytes: self.header_block(dice),
        }];
        for (place, run) in self.runs.iter().enumerate() {
            sent.extend(self.profile_blocks(dice, place as i64, run));
        }
        if self.head.numbers.accuracy == 1 {
            sent.push(Sent {
                record: Record::Statistics,
                bytes: statistics_block(dice, &self.statistics),
            });
        }
        sent
    }

    fn header_block(&self, dice: &mut Dice) -> Vec<u8> {
        let step = self.head.numbers.step();
        let filled = self.runs.iter().flat_map(|run| run.filled(step));
        let (least, greatest) = extremes(filled.collect());
        let mut head = self.head.clone();
        head.numbers.stated_least = least * HUNDREDTH;
        head.numbers.stated_greatest = greatest * HUNDREDTH;
        head.block(dice)
    }

    fn profile_blocks(&self, dice: &mut Dice, place: i64, run: &Run) -> Vec<Sent> {
        let mut start = vec![b' '; BLOCK_LENGTH];
        let integers = [1, place + 1, run.posts.len() as i64, 1];
        for (index, value) in integers.into_iter().enumerate() {
            let first = 1 + index * INTEGER_WIDTH;
            put(&mut start, first, &hand::integer(dice, value));
        }
        for (index, value) in self.profile_reals(place, run).into_iter().enumerate() {
            let first = 25 + index * REAL_WIDTH;
            put(&mut start, first, &hand::real(dice, value, REAL_WIDTH));
        }
        let (near, far) = run
            .posts
            .split_at(run.posts.len().min(POSTS_OF_FIRST_BLOCK));
        posts::put_posts(dice, &mut start, FIRST_POST, near);
        let mut sent = vec![Sent {
            record: Record::ProfileStart,
            bytes: start,
        }];
        for part in far.chunks(POSTS_OF_FURTHER_BLOCK) {
            let mut rest = vec![b' '; BLOCK_LENGTH];
            posts::put_posts(dice, &mut rest, 1, part);
            sent.push(Sent {
                record: Record::ProfileRest,
                bytes: rest,
            });
        }
        sent
    }

    /// x, y, datum, least, greatest.
    fn profile_reals(&self, place: i64, run: &Run) -> [i64; 5] {
        let numbers = &self.head.numbers;
        let (least, greatest) = extremes(run.filled(numbers.step()));
        [
            self.head.west + (self.first_column + place) * numbers.x_spacing,
            self.head.south + run.row * numbers.y_spacing,
            run.datum * HUNDREDTH,
            least * HUNDREDTH,
            greatest * HUNDREDTH,
        ]
    }
}

pub fn statistics_block(dice: &mut Dice, numbers: &[i64; 10]) -> Vec<u8> {
    let mut block = vec![b' '; BLOCK_LENGTH];
    for (index, &value) in numbers.iter().enumerate() {
        let first = 1 + index * INTEGER_WIDTH;
        put(&mut block, first, &hand::integer(dice, value));
    }
    block
}

fn extremes(filled: Vec<i64>) -> (i64, i64) {
    match (filled.iter().min(), filled.iter().max()) {
        (Some(&least), Some(&greatest)) => (least, greatest),
        _ => (0, 0),
    }
}
