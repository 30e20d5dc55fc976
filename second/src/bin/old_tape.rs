//! Writes a sheet without points to standard output: that of document 01, or, with the argument 1,
//! what becomes of the Canadian block 0 on standard input.

use second::old_tape;
use std::io::{self, Read, Write};

fn main() -> io::Result<()> {
    let written = match std::env::args().nth(1).as_deref() {
        Some("1") => {
            let mut block = Vec::new();
            io::stdin().read_to_end(&mut block)?;
            old_tape::canadian(&block)
        }
        _ => old_tape::sheet(),
    };
    io::stdout().write_all(&written)
}
