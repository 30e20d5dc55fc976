//! The sheet of document 01 with a slip of the typist (02, request 6): in the third post of profile
//! 1, a twelve, an O has got between the digits. The post stands in bytes 157 to 162 of block 1, the
//! O in 161. Kept in `../samples/TYPO.DEM`.

use crate::block::put;
use crate::paper;

const PROFILE: usize = 1;
const THIRD_POST: usize = 157;
const TYPED: &[u8; 6] = b"   1O2";

pub fn sheet() -> Vec<u8> {
    let mut blocks = paper::blocks();
    put(&mut blocks[PROFILE], THIRD_POST, TYPED);
    blocks.concat()
}
