//! Writes the sheet of document 01 with one post mistyped to standard output.

use second::typo;
use std::io::{self, Write};

fn main() -> io::Result<()> {
    io::stdout().write_all(&typo::sheet())
}
