//! The south-west corner as a Canadian record A writes it in bytes 110 to 135 (02, request 2;
//! 003, element 1): longitude, then latitude, each as degrees, minutes and seconds.

use crate::block::{demand, integer_of, real, stretch, Fault, UNIT};
use crate::kind::OUT_OF_RANGE;

/// Where longitude and latitude begin.
pub const LONGITUDE: usize = 110;
pub const LATITUDE: usize = 123;

pub const DEGREES_WIDTH: usize = 4;
pub const MINUTES_WIDTH: usize = 2;
pub const SECONDS_WIDTH: usize = 7;

/// Bytes of one angle.
pub const ANGLE_WIDTH: usize = DEGREES_WIDTH + MINUTES_WIDTH + SECONDS_WIDTH;

/// An angle in billionths of an arc-second, from its three fields.
pub fn angle(block: &[u8], first: usize) -> Result<i64, Fault> {
    let (minutes_at, seconds_at) = (first + DEGREES_WIDTH, first + DEGREES_WIDTH + MINUTES_WIDTH);
    let degrees = integer_of(block, first, DEGREES_WIDTH)?;
    let minutes = integer_of(block, minutes_at, MINUTES_WIDTH)?;
    demand((0..60).contains(&minutes), OUT_OF_RANGE, minutes_at)?;
    let seconds = real(block, seconds_at, SECONDS_WIDTH)?;
    demand((0..60 * UNIT).contains(&seconds), OUT_OF_RANGE, seconds_at)?;
    let size = (degrees.abs() * 3600 + minutes * 60) * UNIT + seconds;
    // "the sign taken over all three parts": the sign that is written, also before a zero
    // (READINGS-02, 2.6). In a field of right form a minus stands nowhere else.
    let written = stretch(block, first, first + DEGREES_WIDTH - 1);
    Ok(if written.contains(&b'-') { -size } else { size })
}
