//! The sheet of document 01, "The lister, and one sheet", as the bytes a writer would
//! send. Where the paper names no value, texts are blank, the level is 1 and the
//! projection's reals are zeros.

use crate::block::{put, BLOCK_LENGTH, UNIT};
use crate::meaning::Block;
use crate::profile::VOID_POST;
use crate::written::{put_integers, put_reals, put_spacings};

const NAME: &[u8] = b"PAPER SHEET";
/// SW, NW, NE, SE, each x then y.
const CORNERS: [i64; 8] = [600, 900, 600, 960, 630, 960, 630, 900];
const SPACINGS: [i64; 3] = [30, 30, 1];
const EXTREMES: [i64; 2] = [9, 12];

/// Block 0 and the two profiles, joined.
pub fn sheet() -> Vec<u8> {
    blocks().concat()
}

pub fn blocks() -> [Block; 3] {
    [
        header(),
        profile(1, [600, 900], [10, 12], &[10, VOID_POST, 12]),
        profile(2, [630, 930], [9, 11], &[11, 9]),
    ]
}

/// Whole units as the billionths that reals are kept in.
fn units<const COUNT: usize>(values: [i64; COUNT]) -> [i64; COUNT] {
    values.map(|value| value * UNIT)
}

fn header() -> Block {
    let mut block = vec![b' '; BLOCK_LENGTH];
    put(&mut block, 1, NAME);
    let (level, pattern, utm, zone) = (1, 1, 1, 17);
    put_integers(&mut block, 145, &[level, pattern, utm, zone]);
    put_reals(&mut block, 169, &[0; 15]);
    let (metres, sides) = (2, 4);
    put_integers(&mut block, 529, &[metres, metres, sides]);
    put_reals(&mut block, 547, &units(CORNERS));
    put_reals(&mut block, 739, &units(EXTREMES));
    put_reals(&mut block, 787, &[0]);
    put_integers(&mut block, 811, &[0]);
    put_spacings(&mut block, 817, &units(SPACINGS));
    let (m, n) = (1, 2);
    put_integers(&mut block, 853, &[m, n]);
    block
}

/// `south` is x and y of the first post; the datum is zero.
fn profile(number: i64, south: [i64; 2], extremes: [i64; 2], posts: &[i64]) -> Block {
    let mut block = vec![b' '; BLOCK_LENGTH];
    put_integers(&mut block, 1, &[1, number, posts.len() as i64, 1]);
    put_reals(&mut block, 25, &units(south));
    put_reals(&mut block, 73, &[0]);
    put_reals(&mut block, 97, &units(extremes));
    put_integers(&mut block, 145, posts);
    block
}
