//! Record C: two groups of code, three errors and a count, then blanks.

use crate::block::{blank_rest, demand, integer, integer_within, Fault, INTEGER_WIDTH};
use crate::kind::{OUT_OF_RANGE, WRONG_CODE};

const GROUPS: [usize; 2] = [1, 31];
const NUMBERS_UNDER_A_CODE: usize = 4;

/// One pass by byte; inside a field form, then sign, then zero under code 0 (READINGS 23).
pub fn check(block: &[u8]) -> Result<(), Fault> {
    for first in GROUPS {
        let code = integer_within(block, first, 0..=1, WRONG_CODE)?;
        for place in 1..=NUMBERS_UNDER_A_CODE {
            let byte = first + place * INTEGER_WIDTH;
            let number = integer(block, byte)?;
            demand(number >= 0, OUT_OF_RANGE, byte)?;
            demand(code == 1 || number == 0, WRONG_CODE, byte)?;
        }
    }
    blank_rest(block, 61)
}
