//! The kinds of refusal, by the numbers document 01 gives them. Kind 2, an unsound
//! session, comes up only where a session is numbers: one of blocks taken is always sound.

pub const WRONG_LENGTH: u32 = 1;
pub const UNSOUND: u32 = 2;
pub const TOO_EARLY: u32 = 3;
pub const SHEET_COMPLETE: u32 = 4;
pub const WRONG_TEXT: u32 = 5;
pub const WRONG_FORM: u32 = 6;
pub const OUT_OF_RANGE: u32 = 7;
pub const TOO_FINE: u32 = 8;
pub const WRONG_CODE: u32 = 9;
pub const WRONG_PLACE: u32 = 10;
pub const WRONG_EXTREME: u32 = 11;
pub const GRID_TOO_SHORT: u32 = 12;
pub const UNFIT_CELL: u32 = 13;
pub const NO_SUCH_BLOCK: u32 = 14;
/// Request 2 of document 02: the corner in text is not the corner in numbers.
pub const CORNER_DISAGREES: u32 = 15;
