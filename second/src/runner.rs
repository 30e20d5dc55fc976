//! Runs a program on an input and hands back what it wrote, or why that cannot count.

use std::io::{Read, Write};
use std::process::{Child, ChildStdin, Command, ExitStatus, Stdio};
use std::thread;
use std::time::{Duration, Instant};

/// A program that is not done by then is taken not to end at all.
const LONGEST_RUN: Duration = Duration::from_secs(60);
/// More than any right output; a program that writes without end is cut off here.
const MOST_OUTPUT: u64 = 16_000_000;

/// Long enough for a program to have read a piece before the next one comes.
const BETWEEN_PIECES: Duration = Duration::from_millis(3);

/// The standard output of a run that ended with status 0 and wrote no errors, which is
/// what is asked of every program.
pub fn run(program: &str, input: &[u8]) -> Result<Vec<u8>, String> {
    run_in_pieces(program, &[input])
}

/// The same with an input that comes piece by piece, as a slow pipe brings it.
pub fn run_in_pieces(program: &str, pieces: &[&[u8]]) -> Result<Vec<u8>, String> {
    let started = Command::new(program)
        .stdin(Stdio::piped())
        .stdout(Stdio::piped())
        .stderr(Stdio::piped())
        .spawn();
    let mut child = started.map_err(|fault| format!("{program} cannot be started: {fault}"))?;
    let lent = child.stdin.take().expect("asked for above");
    let output = child.stdout.take().expect("asked for above");
    let errors = child.stderr.take().expect("asked for above");
    thread::scope(|scope| {
        scope.spawn(move || feed(lent, pieces));
        let output = scope.spawn(|| read_all(output));
        let errors = scope.spawn(|| read_all(errors));
        let status = wait(&mut child)?;
        let output = output.join().expect("reading does not panic")?;
        let errors = errors.join().expect("reading does not panic")?;
        if !status.success() {
            return Err(format!("ended with {status}"));
        }
        if !errors.is_empty() {
            return Err(format!("standard error: {}", errors.escape_ascii()));
        }
        Ok(output)
    })
}

/// A program may end before its input does, as at a bad script: no fault.
fn feed(mut lent: ChildStdin, pieces: &[&[u8]]) {
    for (place, piece) in pieces.iter().enumerate() {
        if place > 0 {
            thread::sleep(BETWEEN_PIECES);
        }
        if lent.write_all(piece).is_err() {
            return;
        }
    }
}

fn read_all(from: impl Read) -> Result<Vec<u8>, String> {
    let mut bytes = Vec::new();
    let read = from.take(MOST_OUTPUT).read_to_end(&mut bytes);
    read.map_err(|fault| format!("its output cannot be read: {fault}"))?;
    Ok(bytes)
}

fn wait(child: &mut Child) -> Result<ExitStatus, String> {
    let start = Instant::now();
    loop {
        match child.try_wait() {
            Ok(Some(status)) => return Ok(status),
            Ok(None) if start.elapsed() < LONGEST_RUN => thread::sleep(Duration::from_millis(1)),
            Ok(None) => {
                // Ends the child, so that the threads reading from it end too.
                let ended = child.kill().and_then(|()| child.wait());
                return Err(format!("not done after {LONGEST_RUN:?}, ended: {ended:?}"));
            }
            Err(fault) => return Err(format!("cannot be waited for: {fault}")),
        }
    }
}
