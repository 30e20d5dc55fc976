//! What the comparisons with another program have in common: their arguments, inputs in
//! turn on all processors up to the first difference, and how a run ends.

use crate::dice::Dice;
use crate::runner;
use crate::turns::Made;
use std::collections::BTreeMap;
use std::process::exit;
use std::str::FromStr;
use std::sync::atomic::{AtomicUsize, Ordering};
use std::sync::Mutex;
use std::thread;

const USUAL_SEED: u64 = 19_970_103;
/// A differing line is shown up to here; right ones are shorter.
const SHOWN: usize = 64;

/// PROGRAM [SEED] [COUNT], and a fourth argument that only some comparisons have.
pub struct Asked {
    pub program: String,
    pub seed: u64,
    pub inputs: usize,
    pub fourth: Option<usize>,
}

/// Compares as many inputs as the arguments ask for; the notes of all, in no order. The
/// first difference ends the run.
pub fn notes_of<Note: Send>(
    usage: &str,
    usual_inputs: usize,
    compare: impl Fn(&Asked, usize) -> Result<Note, Mismatch> + Sync,
) -> Vec<Note> {
    let asked = asked(usage, usual_inputs);
    println!("seed {}", asked.seed);
    let compared = on_all_processors(asked.inputs, |number| compare(&asked, number));
    compared.unwrap_or_else(|mismatch| fail(usage, &mismatch))
}

fn asked(usage: &str, usual_inputs: usize) -> Asked {
    let given = arguments(usage);
    Asked {
        program: given[0].clone(),
        seed: number(&given, 1, usage).unwrap_or(USUAL_SEED),
        inputs: number(&given, 2, usage).unwrap_or(usual_inputs),
        fourth: number(&given, 3, usage),
    }
}

/// The arguments given; none, or more than the usage names, end the program with status 2.
pub fn arguments(usage: &str) -> Vec<String> {
    let given: Vec<String> = std::env::args().skip(1).collect();
    let permitted = 1..=usage.split_whitespace().count() - 1;
    if !permitted.contains(&given.len()) {
        explain(usage);
    }
    given
}

/// The argument at this place, if it is given; one that is no number is status 2 too.
pub fn number<T: FromStr>(given: &[String], place: usize, usage: &str) -> Option<T> {
    let text = given.get(place)?;
    Some(text.parse().unwrap_or_else(|_| explain(usage)))
}

fn explain(usage: &str) -> ! {
    println!("usage: {usage}");
    exit(2);
}

/// What the program writes for this input. Every 21st input comes in pieces, cut at any
/// byte; 21 has no divisor in common with the 100 shares, so all families get their turn.
fn output_of(asked: &Asked, number: usize, input: &[u8]) -> Result<Vec<u8>, String> {
    if number % 21 != 5 {
        return runner::run(&asked.program, input);
    }
    let mut dice = Dice::numbered(!asked.seed, number);
    let mut cuts: Vec<usize> = (0..5).map(|_| dice.size(0, input.len())).collect();
    cuts.sort_unstable();
    let mut pieces = Vec::new();
    let mut start = 0;
    for cut in cuts {
        pieces.push(&input[start..cut]);
        start = cut;
    }
    pieces.push(&input[start..]);
    runner::run_in_pieces(&asked.program, &pieces)
}

/// What differed, in words, and the input that showed it.
pub struct Mismatch {
    words: String,
    input: Vec<u8>,
}

impl Mismatch {
    pub fn of(words: String, input: Vec<u8>) -> Mismatch {
        Mismatch { words, input }
    }
}

/// Runs the program on input `number`; `what` is such an input in a word. `difference` says
/// what is wrong with an output; None if nothing is.
pub fn demand_same(
    asked: &Asked,
    what: &str,
    number: usize,
    made: &Made,
    difference: impl Fn(&[u8]) -> Option<String>,
) -> Result<(), Mismatch> {
    let fault = match output_of(asked, number, &made.bytes) {
        Err(reason) => Some(format!("the program {reason}")),
        Ok(found) => difference(&found),
    };
    match fault {
        None => Ok(()),
        Some(fault) => Err(Mismatch {
            words: format!("mismatch in {what} {number}, {}\n{fault}", made.family),
            input: made.bytes.clone(),
        }),
    }
}

/// Input after input on all processors, up to the first difference found.
fn on_all_processors<Note: Send>(
    inputs: usize,
    compare: impl Fn(usize) -> Result<Note, Mismatch> + Sync,
) -> Result<Vec<Note>, Mismatch> {
    let next = AtomicUsize::new(0);
    let notes = Mutex::new(Ok(Vec::new()));
    let work = || loop {
        let number = next.fetch_add(1, Ordering::Relaxed);
        if number >= inputs || lock(&notes).is_err() {
            return;
        }
        let compared = compare(number);
        let mut found = lock(&notes);
        match (&mut *found, compared) {
            (Ok(notes), Ok(note)) => notes.push(note),
            (Ok(_), Err(mismatch)) => *found = Err(mismatch),
            (Err(_), _) => {}
        }
    };
    let threads = thread::available_parallelism().map_or(1, |count| count.get());
    thread::scope(|scope| {
        for _ in 0..threads {
            scope.spawn(work);
        }
    });
    notes.into_inner().expect("no thread panicked")
}

fn lock<T>(shared: &Mutex<T>) -> std::sync::MutexGuard<'_, T> {
    shared
        .lock()
        .expect("no thread panics while it has the lock")
}

/// Tells of a difference, keeps its input for another look, and ends with status 1.
fn fail(usage: &str, mismatch: &Mismatch) -> ! {
    println!("{}", mismatch.words);
    let comparison = usage.split(' ').next().unwrap_or(usage);
    let kept = std::env::temp_dir().join(format!("{comparison}.input"));
    match std::fs::write(&kept, &mismatch.input) {
        Ok(()) => println!("the input is kept in {}", kept.display()),
        Err(fault) => println!("the input cannot be kept: {fault}"),
    }
    exit(1);
}

/// Ends a run without difference: status 0 if it compared enough to count.
pub fn finish(shortcomings: &[String]) -> ! {
    for shortcoming in shortcomings {
        println!("this run does not count: {shortcoming}");
    }
    if !shortcomings.is_empty() {
        exit(1);
    }
    println!("no difference");
    exit(0);
}

/// The first line in which two outputs differ, in words; None if they are the same.
pub fn line_difference(expected: &[u8], found: &[u8]) -> Option<String> {
    if found == expected {
        return None;
    }
    let (ours, theirs) = (lines_of(expected), lines_of(found));
    let same = ours.iter().zip(&theirs).take_while(|(a, b)| a == b).count();
    let show = |lines: &[&[u8]]| match lines.get(same) {
        Some(line) => format!("\"{}\"", line[..line.len().min(SHOWN)].escape_ascii()),
        None => "nothing more".to_string(),
    };
    Some(format!(
        "line {}\nsecond  {}\nprogram {}",
        same + 1,
        show(&ours),
        show(&theirs)
    ))
}

/// Lines with their line feeds, so that a missing last one shows.
fn lines_of(output: &[u8]) -> Vec<&[u8]> {
    output.split_inclusive(|&byte| byte == b'\n').collect()
}

/// What is counted of one input: its family, what came of it, what it showed besides.
pub struct Note {
    pub family: &'static str,
    pub outcome: String,
    pub shown: Vec<String>,
}

/// What a run must have had, each at least once, to count.
pub struct Wanted {
    pub fewest: usize,
    pub families: Vec<&'static str>,
    pub outcomes: Vec<String>,
    pub shown: Vec<String>,
}

/// How often things were seen, by their names.
#[derive(Default)]
pub struct Counts {
    times: BTreeMap<String, usize>,
}

impl Counts {
    pub fn see(&mut self, name: impl Into<String>) {
        *self.times.entry(name.into()).or_default() += 1;
    }

    pub fn all(&self) -> usize {
        self.times.values().sum()
    }

    fn of<'a>(names: impl Iterator<Item = &'a str>) -> Counts {
        let mut counts = Counts::default();
        for name in names {
            counts.see(name);
        }
        counts
    }

    pub fn print(&self, title: &str, wanted: &[impl AsRef<str>]) {
        println!("{title}");
        for name in wanted.iter().map(AsRef::as_ref) {
            println!("  {name:<40} {:>7}", self.times.get(name).unwrap_or(&0));
        }
    }

    pub fn never_seen(&self, wanted: &[impl AsRef<str>]) -> Vec<String> {
        let names = wanted.iter().map(AsRef::as_ref);
        let missing = names.filter(|&name| !self.times.contains_key(name));
        missing.map(|name| format!("{name} never seen")).collect()
    }
}

/// Prints how often everything wanted was seen; answers what the run falls short of.
pub fn tally(notes: &[Note], wanted: &Wanted) -> Vec<String> {
    let families = Counts::of(notes.iter().map(|note| note.family));
    let outcomes = Counts::of(notes.iter().map(|note| note.outcome.as_str()));
    let all_shown = notes.iter().flat_map(|note| &note.shown);
    let shown = Counts::of(all_shown.map(String::as_str));
    println!("compared {}", notes.len());
    families.print("families", &wanted.families);
    outcomes.print("outcomes", &wanted.outcomes);
    shown.print("among them", &wanted.shown);
    let mut found = Vec::new();
    if notes.len() < wanted.fewest {
        found.push(format!("fewer than {} compared", wanted.fewest));
    }
    found.extend(families.never_seen(&wanted.families));
    found.extend(outcomes.never_seen(&wanted.outcomes));
    found.extend(shown.never_seen(&wanted.shown));
    found
}
