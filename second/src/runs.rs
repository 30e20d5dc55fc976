//! Several blocks in one call (02, request 3; READINGS-02, 3.1 to 3.9). A run is said over
//! whatever answers a single delivery; of records, sessions and grids it knows nothing itself.

pub mod line;
pub mod shown;

use crate::block::BLOCK_LENGTH;
use crate::kept::{self, Told, DONE, HELD};
use crate::kind::WRONG_LENGTH;

/// What a run tells, and how many of its blocks were taken or held before one was refused.
#[derive(Clone, Copy, Debug, PartialEq)]
pub struct Ended {
    pub told: Told,
    pub count: u32,
}

/// The blocks of these bytes, delivered by `single` in order from `number` on.
pub fn run(number: u32, bytes: &[u8], mut single: impl FnMut(u32, &[u8]) -> Told) -> Ended {
    let blocks = bytes.chunks_exact(BLOCK_LENGTH);
    if !blocks.remainder().is_empty() {
        return ended(WRONG_LENGTH, number);
    }
    // An empty run is held; any other ends as its last delivery does.
    let mut run = ended(HELD, 0);
    for block in blocks {
        // No sum past 32 bits: every block before this one was taken or held (3.8).
        run.told = single(number + run.count, block);
        if is_refused(run.told) {
            return run;
        }
        run.count += 1;
    }
    run
}

/// A run over a session that is kept as numbers.
pub fn deliver(numbers: &mut [i64], number: u32, bytes: &[u8], grid: &mut [i32]) -> Ended {
    run(number, bytes, |number, block| {
        kept::deliver(numbers, number, block, grid)
    })
}

pub fn is_refused(told: Told) -> bool {
    !matches!(told.result, DONE | HELD)
}

/// With byte 0 and no block counted.
fn ended(result: u32, block: u32) -> Ended {
    Ended {
        told: Told {
            result,
            block,
            byte: 0,
        },
        count: 0,
    }
}
