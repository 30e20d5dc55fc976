//! Record B, one profile: its first block, its further blocks, and what its posts say.

use crate::block::{
    blank_rest, demand, integer_within, real, Fault, HUNDREDTH, INTEGER_WIDTH, REAL_WIDTH, UNIT,
};
use crate::kind::{OUT_OF_RANGE, WRONG_CODE, WRONG_PLACE};
use crate::record_a::Header;

pub const POSTS_OF_FIRST_BLOCK: usize = 146;
pub const POSTS_OF_FURTHER_BLOCK: usize = 170;
pub const FIRST_POST: usize = 145;
pub const VOID_POST: i64 = -32767;
const GREATEST_POST: i64 = 32767;
const GREATEST_DATUM: i64 = 10_000 * UNIT;

/// A profile as far as its blocks have been read. Reals are in billionths.
#[derive(Clone, Debug)]
pub struct Profile {
    pub column: i64,
    pub row: i64,
    /// How many posts it has in all; `posts` are those read.
    pub length: usize,
    pub datum: i64,
    pub stated_least: i64,
    pub stated_greatest: i64,
    pub posts: Vec<i64>,
}

/// Where a profile comes in its sheet: its number, counted from 1, and the column that
/// the one before it leaves; None for the first.
pub struct Turn {
    pub number: i64,
    pub next_column: Option<i64>,
}

impl Profile {
    /// The profile whose turn it is, from its first block.
    pub fn start(block: &[u8], header: &Header, turn: &Turn) -> Result<Profile, Fault> {
        let number = turn.number;
        integer_within(block, 1, 1..=1, WRONG_CODE)?;
        integer_within(block, 7, number..=number, WRONG_CODE)?;
        let permitted = header.rules().posts.clone();
        let length = integer_within(block, 13, permitted, OUT_OF_RANGE)? as usize;
        integer_within(block, 19, 1..=1, WRONG_CODE)?;
        let x = real(block, 25, REAL_WIDTH)?;
        let y = real(block, 49, REAL_WIDTH)?;
        let datum = read_datum(block)?;
        let stated_least = real(block, 97, REAL_WIDTH)?;
        let stated_greatest = real(block, 121, REAL_WIDTH)?;
        let posts = read_posts(block, FIRST_POST, length.min(POSTS_OF_FIRST_BLOCK))?;
        // Place rules look at the whole record, so they come last (READINGS 18, 19).
        let column = column_of(x, header, turn).ok_or((WRONG_PLACE, 25))?;
        let row = row_of(y, header, length as i64).ok_or((WRONG_PLACE, 49))?;
        Ok(Profile {
            column,
            row,
            length,
            datum,
            stated_least,
            stated_greatest,
            posts,
        })
    }

    pub fn read_further_block(&mut self, block: &[u8]) -> Result<(), Fault> {
        let posts = further_posts(block, self.length - self.posts.len())?;
        self.posts.extend(posts);
        Ok(())
    }

    pub fn closed(&self) -> bool {
        self.posts.len() == self.length
    }

    /// Each post read, from the south: its elevation in hundredths, or None for a void.
    pub fn elevations(&self, z_spacing: i64) -> Vec<Option<i64>> {
        let of_post = |&post: &i64| elevation(post, z_spacing, self.datum);
        self.posts.iter().map(of_post).collect()
    }
}

/// A void is seen before anything is scaled; all else is exact in hundredths.
pub fn elevation(post: i64, z_spacing: i64, datum: i64) -> Option<i64> {
    if post == VOID_POST {
        return None;
    }
    Some(post * (z_spacing / HUNDREDTH) + datum / HUNDREDTH)
}

/// The posts of a further block when so many are left.
pub fn further_posts(block: &[u8], left: usize) -> Result<Vec<i64>, Fault> {
    read_posts(block, 1, left.min(POSTS_OF_FURTHER_BLOCK))
}

fn read_datum(block: &[u8]) -> Result<i64, Fault> {
    let datum = real(block, 73, REAL_WIDTH)?;
    let permitted = datum % HUNDREDTH == 0 && datum.abs() <= GREATEST_DATUM;
    demand(permitted, OUT_OF_RANGE, 73)?;
    Ok(datum)
}

/// `count` posts from byte `first`, and blanks after the last of them.
fn read_posts(block: &[u8], first: usize, count: usize) -> Result<Vec<i64>, Fault> {
    let mut posts = Vec::new();
    for place in 0..count {
        let byte = first + place * INTEGER_WIDTH;
        let permitted = VOID_POST..=GREATEST_POST;
        posts.push(integer_within(block, byte, permitted, OUT_OF_RANGE)?);
    }
    blank_rest(block, first + count * INTEGER_WIDTH)?;
    Ok(posts)
}

/// The first profile may stand wherever all n have room, each next one right beside it.
fn column_of(x: i64, header: &Header, turn: &Turn) -> Option<i64> {
    let columns = header.columns();
    let column = columns.place_of(x)?;
    let permitted = match turn.next_column {
        None => column + header.n <= columns.count(),
        Some(next) => column == next,
    };
    permitted.then_some(column)
}

fn row_of(y: i64, header: &Header, length: i64) -> Option<i64> {
    let rows = header.rows();
    let row = rows.place_of(y)?;
    (row + length <= rows.count()).then_some(row)
}
