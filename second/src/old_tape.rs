//! Sheets as old tapes may carry them (02, request 4): that of document 01, and block 0 of a
//! Canadian one. Every real is typed once more without a point, each in another way, and the
//! sheets mean what they did. Kept in `../samples/NOPOINT.DEM` and `../samples/C_NOPOINT.DEM`.

use crate::block::put;
use crate::meaning::Block;
use crate::paper;

/// Bytes and what is typed there.
type Typed = (usize, &'static str);

/// Corners (600,900) (600,960) (630,960) (630,900), extremes 9 and 12, angle, spacings 30, 30, 1.
const HEADER: [Typed; 15] = [
    (1, "PAPER SHEET, NO POINT"),
    (547, "      600000000000000000"),
    (571, "9D17                    "),
    (595, "   600000000000000D+03  "),
    (619, "000000960000000000000000"),
    (643, "                  630E15"),
    (667, "+96000000000000000D+01  "),
    (691, "     63000000000000000E1"),
    (715, " 90000000000000000000D-2"),
    (739, "                    9D15"),
    (763, "       12000000000000000"),
    (787, "                  -0D-99"),
    (817, "  300000E+02"),
    (829, "30000000    "),
    (841, "     1000000"),
];

/// x 600, y 900, datum 0, extremes 10 and 12.
const FIRST_PROFILE: [Typed; 5] = [
    (25, "                    6D17"),
    (49, "   900000000000000D+03  "),
    (73, "0                       "),
    (97, "       10000000000000000"),
    (121, "12E15                   "),
];

/// x 630, y 930, datum 5, extremes 9 and 11. The posts are 5 lower than on the paper.
const SECOND_PROFILE: [Typed; 6] = [
    (25, "      630000000000000000"),
    (49, "                  93D+16"),
    (73, "                    5D15"),
    (97, "        9000000000000000"),
    (121, "000000011000000000000000"),
    (145, "     6     4"),
];

/// The sheet of document 01.
pub fn sheet() -> Vec<u8> {
    let mut blocks = paper::blocks();
    for place in 0..15 {
        put(
            &mut blocks[0],
            169 + place * 24,
            format!("{:>24}", "0").as_bytes(),
        );
    }
    type_over(&mut blocks[0], &HEADER);
    type_over(&mut blocks[1], &FIRST_PROFILE);
    type_over(&mut blocks[2], &SECOND_PROFILE);
    blocks.concat()
}

/// Over block 0 of `../samples/C_TAKEN.DEM`. Its south-west corner has no seconds, which would say
/// nothing; so it moves a spacing east and a spacing north, to 53 14 59.25 west and 47 15 00.75
/// north. The other corners still span the same lattice.
const CANADIAN_HEADER: [Typed; 17] = [
    (1, "                          001n06no_point"),
    (110, " -5314592500 "),
    (123, "  4715   75E2"),
    (547, "    -191699250000000D+06"),
    (571, "  170100750000000000000 "),
    (595, "               -1917D+17"),
    (619, "171D18                  "),
    (643, "  -190800000000000000000"),
    (667, "000171000000000000000000"),
    (691, "                -1908E17"),
    (715, "     170100000000000D+06"),
    (739, "                  -4D+16"),
    (763, "     1196000000000000000"),
    (787, "                       0"),
    (817, "  750000E+00"),
    (829, "        75E4"),
    (841, "     1000000"),
];

pub fn canadian(taken: &[u8]) -> Block {
    let mut block = taken.to_vec();
    type_over(&mut block, &CANADIAN_HEADER);
    block
}

fn type_over(block: &mut [u8], fields: &[Typed]) {
    for &(first, text) in fields {
        put(block, first, text.as_bytes());
    }
}
