//! This program's own lister: blocks on standard input, its lines on standard output. It
//! lends 15,000 cells, or as many as a first argument says (1442401 makes it the survey).

use second::block::USUAL_CELLS;
use second::lister;
use std::io::{self, Read, Write};

fn main() -> io::Result<()> {
    let cells = match std::env::args().nth(1) {
        None => USUAL_CELLS,
        Some(text) => text.parse().map_err(io::Error::other)?,
    };
    let mut input = Vec::new();
    io::stdin().read_to_end(&mut input)?;
    io::stdout().write_all(lister::list(&input, cells).output().as_bytes())
}
