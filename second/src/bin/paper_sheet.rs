//! Writes the sheet of document 01, three blocks, to standard output.

use second::paper;
use std::io::{self, Write};

fn main() -> io::Result<()> {
    io::stdout().write_all(&paper::sheet())
}
