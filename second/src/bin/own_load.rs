//! What `load STATE [FAMILY]` writes for a line on standard input if STATE is fresh. This program
//! neither reads nor keeps a state; wrong usage is status 2, as there.

use second::family::{CANADIAN, USGS};
use second::frames;
use std::io::{self, Read, Write};
use std::process::exit;

fn family() -> Option<i64> {
    let given: Vec<String> = std::env::args().skip(1).collect();
    let (state, family) = match given.as_slice() {
        [state] => (state, "0"),
        [state, family] => (state, family.as_str()),
        _ => return None,
    };
    match (state.is_empty(), family) {
        (false, "0") => Some(USGS),
        (false, "1") => Some(CANADIAN),
        _ => None,
    }
}

fn main() -> io::Result<()> {
    let Some(family) = family() else {
        eprintln!("usage: own_load STATE [FAMILY] <LINE, FAMILY being 0 or 1");
        exit(2);
    };
    let mut line = Vec::new();
    io::stdin().read_to_end(&mut line)?;
    io::stdout().write_all(frames::press(family, &line).as_bytes())
}
