//! This program's own writer behind the interface of `sender`: a template and cells on
//! standard input, a sheet or one line on standard output.

use second::sender;
use std::io::{self, Read, Write};

fn main() -> io::Result<()> {
    let mut input = Vec::new();
    io::stdin().read_to_end(&mut input)?;
    io::stdout().write_all(&sender::run(&input).output())
}
