//! A sheet's file on standard input as a line for the Load button on standard output.

use second::frames;
use std::io::{self, Read, Write};

fn main() -> io::Result<()> {
    let mut sheet = Vec::new();
    io::stdin().read_to_end(&mut sheet)?;
    io::stdout().write_all(&frames::line_of(&sheet))
}
