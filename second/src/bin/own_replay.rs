//! This program's own loader behind the interface of `replay`: a script on standard
//! input, its lines on standard output.

use second::replay;
use std::io::{self, Read, Write};

fn main() -> io::Result<()> {
    let mut script = Vec::new();
    io::stdin().read_to_end(&mut script)?;
    io::stdout().write_all(replay::run(&script).output.as_bytes())
}
