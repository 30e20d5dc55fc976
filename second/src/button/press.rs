//! One press of the button: the program run on a line, to its end or up to a kill.

use crate::dice::Dice;
use std::fs;
use std::io::{Read, Write};
use std::path::{Path, PathBuf};
use std::process::{Child, ChildStdout, Command, Stdio};
use std::thread;
use std::time::{Duration, Instant};

/// The program, and where it keeps the state of one sheet.
pub struct Button {
    program: String,
    folder: PathBuf,
    /// What is said of the family, if anything: none is USGS.
    family: Option<String>,
}

/// When a press is killed.
pub enum Kill {
    Never,
    After(Duration),
    /// After so long, with so many bytes of the line sent and the line still open: however fast the
    /// machine, the press cannot have ended.
    Waiting(usize, Duration),
    /// So long after the new state has begun to be written, the line still open; or at the latest
    /// after the second time, should the writing not have been seen.
    Writing(Duration, Duration),
}

/// How a press ended; no status if it was killed.
pub struct Ended {
    pub status: Option<i32>,
    pub output: String,
    pub errors: String,
}

/// A press that is not done by then is taken not to end at all.
const LONGEST_PRESS: Duration = Duration::from_secs(60);

impl Button {
    pub fn new(program: &str, name: &str, family: Option<String>) -> Button {
        let own = format!("poor_line.{}.{name}", std::process::id());
        let folder = std::env::temp_dir().join(own);
        fs::create_dir_all(&folder).expect("the folder for temporary files takes more");
        Button {
            program: program.to_string(),
            folder,
            family,
        }
    }

    pub fn state(&self) -> PathBuf {
        self.folder.join("STATE")
    }

    /// What is written before it takes the state's name.
    pub fn fresh(&self) -> PathBuf {
        self.folder.join("STATE.new")
    }

    pub fn state_bytes(&self) -> Option<Vec<u8>> {
        fs::read(self.state()).ok()
    }

    fn command(&self) -> Command {
        let mut command = Command::new(&self.program);
        command.arg(self.state()).args(&self.family);
        command
    }

    pub fn press(&self, line: &[u8], kill: &Kill) -> Ended {
        run(&mut self.command(), line, kill, &self.fresh())
    }

    /// With other arguments than it should have.
    pub fn press_wrongly(&self, arguments: &[&Path]) -> Ended {
        let mut command = Command::new(&self.program);
        run(command.args(arguments), b"", &Kill::Never, &self.fresh())
    }

    /// On its state, with something else said of the family.
    pub fn press_with_family(&self, family: &str, line: &[u8]) -> Ended {
        let mut command = Command::new(&self.program);
        command.arg(self.state()).arg(family);
        run(&mut command, line, &Kill::Never, &self.fresh())
    }

    /// No file can grow past so many blocks of 512 bytes, as on a disk that is full.
    pub fn press_with_little_room(&self, line: &[u8], blocks: u64) -> Ended {
        let mut command = Command::new("sh");
        let limited = format!("ulimit -f {blocks} && exec \"$0\" \"$@\"");
        command
            .args(["-c", &limited, &self.program])
            .arg(self.state())
            .args(&self.family);
        run(&mut command, line, &Kill::Never, &self.fresh())
    }

    /// A press on a line that stays open: it has answered `line` with one refusal, so it is at
    /// work. Meanwhile `during` happens, then the line ends.
    pub fn press_during<T>(&self, line: &[u8], during: impl FnOnce() -> T) -> (T, Ended) {
        let mut child = start(&mut self.command());
        let mut lent = child.stdin.take().expect("asked for");
        let mut output = child.stdout.take().expect("asked for");
        lent.write_all(line).expect("a press reads its line");
        let first = first_line(&mut output);
        let happened = during();
        drop(lent);
        let mut ended = end(child, output);
        ended.output.insert_str(0, &first);
        (happened, ended)
    }
}

impl Drop for Button {
    fn drop(&mut self) {
        // A press that failed is looked into; what it left must still be there.
        if !thread::panicking() {
            let _ = fs::remove_dir_all(&self.folder);
        }
    }
}

fn start(command: &mut Command) -> Child {
    let piped = command.stdin(Stdio::piped()).stdout(Stdio::piped());
    piped
        .stderr(Stdio::piped())
        .spawn()
        .expect("the program can be started")
}

fn first_line(output: &mut ChildStdout) -> String {
    let mut bytes = Vec::new();
    let mut byte = [0];
    while !bytes.ends_with(b"\n") && output.read(&mut byte).is_ok_and(|got| got == 1) {
        bytes.push(byte[0]);
    }
    String::from_utf8_lossy(&bytes).into_owned()
}

fn end(mut child: Child, output: ChildStdout) -> Ended {
    let errors = child.stderr.take().expect("asked for");
    let (output, errors) = (text(output), text(errors));
    let status = child.wait().expect("a child can be waited for");
    Ended {
        status: status.code(),
        output,
        errors,
    }
}

fn text(mut from: impl Read) -> String {
    let mut bytes = Vec::new();
    let _ = from.read_to_end(&mut bytes);
    String::from_utf8_lossy(&bytes).into_owned()
}

fn run(command: &mut Command, line: &[u8], kill: &Kill, fresh: &Path) -> Ended {
    let mut child = start(command);
    let mut lent = child.stdin.take().expect("asked for");
    let output = child.stdout.take().expect("asked for");
    let errors = child.stderr.take().expect("asked for");
    thread::scope(|scope| {
        let (sent, open) = match kill {
            Kill::Never | Kill::After(_) => (line, false),
            Kill::Waiting(bytes, _) => (&line[..*bytes], true),
            Kill::Writing(..) => (line, true),
        };
        // A press may end before its line does: no fault.
        let lent = scope.spawn(move || {
            let _ = lent.write_all(sent);
            open.then_some(lent)
        });
        let output = scope.spawn(|| text(output));
        let errors = scope.spawn(|| text(errors));
        wait(&mut child, kill, fresh);
        let status = child.wait().expect("a child can be waited for");
        drop(lent.join().expect("writing does not panic"));
        Ended {
            status: status.code(),
            output: output.join().expect("reading does not panic"),
            errors: errors.join().expect("reading does not panic"),
        }
    })
}

/// Up to the end of the press, or its kill. A state left by an earlier kill is no sign of writing.
fn wait(child: &mut Child, kill: &Kill, fresh: &Path) {
    let start = Instant::now();
    let began = |path: &Path| fs::metadata(path).and_then(|about| about.modified()).ok();
    let before = began(fresh);
    loop {
        if child
            .try_wait()
            .expect("a child can be waited for")
            .is_some()
        {
            return;
        }
        let due = match kill {
            Kill::Never => start.elapsed() > LONGEST_PRESS,
            Kill::After(time) | Kill::Waiting(_, time) => start.elapsed() >= *time,
            Kill::Writing(_, latest) => {
                let seen = began(fresh).is_some_and(|time| Some(time) != before);
                seen || start.elapsed() >= *latest
            }
        };
        if due {
            if let Kill::Writing(time, _) = kill {
                thread::sleep(*time);
            }
            child.kill().expect("a child can be killed");
            return;
        }
        let pause = match kill {
            Kill::Writing(..) => 20,
            _ => 500,
        };
        thread::sleep(Duration::from_micros(pause));
    }
}

/// At any moment of a press on this line, or while the state is being written; one in four may come
/// too late. A press takes as long as usual.
pub fn any_kill(dice: &mut Dice, line: &[u8], usual: Duration) -> Kill {
    let share = |dice: &mut Dice, of: Duration| of.mul_f64(dice.size(0, 1_000) as f64 / 1_000.0);
    match dice.size(0, 3) {
        0 => Kill::After(share(dice, usual)),
        1 => Kill::Waiting(
            dice.size(0, line.len()),
            share(dice, usual + Duration::from_millis(5)),
        ),
        _ => Kill::Writing(
            share(dice, Duration::from_millis(1)),
            usual * 2 + Duration::from_millis(50),
        ),
    }
}
