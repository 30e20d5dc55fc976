//! Compares the field readings of the C calls, asked through PROGRAM (`examples/answers.c`),
//! with those of number.rs. Status 0: no difference. Status 1: a difference, or too little
//! was compared. Usage: compare_fields PROGRAM [SEED]

use second::asking::{ask_all, eight, four, Question};
use second::comparing;
use second::number::{self, Reading};
use second::texts::shown::Shown as VeryBytes;
use second::texts::FAMILIES;
use std::process::exit;

const USAGE: &str = "compare_fields PROGRAM [SEED]";
const USUAL_SEED: u64 = 19_970_101;
const FEWEST_TEXTS: u64 = 1_000_000;
const KINDS: [u32; 5] = [0, 1, 6, 7, 8];
/// Kinds that must turn up, or the run has shown too little.
const INTEGER_KINDS: &[u32] = &[0, 1, 6];
const REAL_KINDS: &[u32] = &[0, 1, 6, 7, 8];
/// A real has at most so many bytes, and a good one so many digits from the first to the last
/// that is not zero.
const LONGEST_REAL: usize = 24;
const MOST_DIGITS: usize = 15;
/// Reals without a point: so many of each length must be good and not zero, 7 and 8, as far as
/// the length can say that. No exponent that makes up for fifteen decimals has room in two bytes,
/// none that makes a number too large in three.
const FEWEST_OF_A_LENGTH: u64 = 50;
const SHORTEST_GOOD: usize = 3;
const SHORTEST_TOO_LARGE: usize = 4;
/// A text is shown up to here; longer ones only test the length.
const SHOWN: usize = 64;

/// How often each kind was answered, in the order of KINDS.
type Tally = [u64; KINDS.len()];

/// A text with what the second program reads in it.
struct Readings {
    text: Vec<u8>,
    integer: Reading,
    real: Reading,
}

impl Readings {
    fn of(text: &[u8]) -> Readings {
        Readings {
            text: text.to_vec(),
            integer: number::integer(text),
            real: number::real(text),
        }
    }
}

impl Question for Readings {
    fn sort(&self) -> u8 {
        b'f'
    }

    fn bytes(&self) -> &[u8] {
        &self.text
    }

    fn surroundings(&self) -> usize {
        2
    }

    /// The reading as an integer, then that as a real.
    fn answer_length(&self) -> usize {
        2 * READING_LENGTH
    }

    fn demand_same(&self, answer: &[u8]) {
        let (integer, real) = (reading_of(answer, 0), reading_of(answer, READING_LENGTH));
        demand_same_reading("integer", &self.text, self.integer, integer);
        demand_same_reading("real", &self.text, self.real, real);
    }
}

/// Kind, value, byte.
const READING_LENGTH: usize = 16;

fn reading_of(answer: &[u8], at: usize) -> Reading {
    Reading {
        kind: four(answer, at),
        value: eight(answer, at + 4),
        byte: four(answer, at + 12),
    }
}

struct Counts {
    texts: u64,
    integers: Tally,
    reals: Tally,
    pointless: Pointless,
    bytes: [VeryBytes; 2],
}

impl Counts {
    fn new() -> Counts {
        Counts {
            texts: 0,
            integers: Tally::default(),
            reals: Tally::default(),
            pointless: Pointless::default(),
            bytes: [VeryBytes::of_integers(), VeryBytes::of_reals()],
        }
    }

    fn add(&mut self, readings: &Readings) {
        let Readings {
            text,
            integer,
            real,
        } = readings;
        self.texts += 1;
        count(&mut self.integers, integer.kind);
        count(&mut self.reals, real.kind);
        self.pointless.add(text, *real);
        self.bytes[0].see(text, *integer);
        self.bytes[1].see(text, *real);
    }
}

/// Reals of right form without a point (02, request 4), zeros left out.
#[derive(Default)]
struct Pointless {
    /// Good, 7 and 8, by the length of the field.
    by_length: [[u64; 3]; LONGEST_REAL + 1],
    /// What else must have come up.
    shown: comparing::Counts,
}

/// A real without a point: its digits from the first to the last that is not zero, all of them,
/// its bytes, and its kind.
struct Sight {
    outer: usize,
    digits: usize,
    text: Vec<u8>,
    kind: u32,
}

impl Sight {
    fn has_exponent(&self) -> bool {
        self.text.iter().any(|byte| b"DE".contains(byte))
    }

    fn too_many_digits(&self) -> bool {
        self.outer > MOST_DIGITS
    }
}

type Shown = (&'static str, fn(&Sight) -> bool);

const SHOWN_WITHOUT_POINT: [Shown; 10] = [
    ("good, no exponent", |s| s.kind == 0 && !s.has_exponent()),
    ("good, an exponent", |s| s.kind == 0 && s.has_exponent()),
    ("good, blanks before", |s| s.kind == 0 && s.text[0] == b' '),
    ("good, blanks behind", |s| {
        s.kind == 0 && s.text.ends_with(b" ")
    }),
    ("good, 24 digits", |s| s.kind == 0 && s.digits == 24),
    ("8, 24 digits", |s| s.kind == 8 && s.digits == 24),
    ("7 and not 8, too many digits", |s| {
        s.kind == 7 && s.too_many_digits()
    }),
    ("7 and not 8, 22 digits", |s| {
        s.kind == 7 && s.too_many_digits() && s.digits == 22
    }),
    ("8, too many digits", |s| s.kind == 8 && s.too_many_digits()),
    ("8, few digits", |s| s.kind == 8 && !s.too_many_digits()),
];

fn names_without_point() -> [&'static str; SHOWN_WITHOUT_POINT.len()] {
    SHOWN_WITHOUT_POINT.map(|(name, _)| name)
}

impl Pointless {
    fn add(&mut self, text: &[u8], real: Reading) {
        let place = match real.kind {
            0 if real.value != 0 => 0,
            7 => 1,
            8 => 2,
            _ => return,
        };
        if text.contains(&b'.') {
            return;
        }
        self.by_length[text.len()][place] += 1;
        let sight = sight_of(text, real.kind);
        let held = SHOWN_WITHOUT_POINT
            .iter()
            .filter(|(_, holds)| holds(&sight));
        for (name, _) in held {
            self.shown.see(*name);
        }
    }

    fn print(&self) {
        println!("without a point, not zero");
        println!("{:>6} {:>8} {:>8} {:>8}", "bytes", "good", "7", "8");
        for (length, [good, large, fine]) in self.by_length.iter().enumerate().skip(1) {
            println!("{length:>6} {good:>8} {large:>8} {fine:>8}");
        }
        self.shown.print("among them", &names_without_point());
    }

    fn shortcomings(&self) -> Vec<String> {
        let mut found = self.shown.never_seen(&names_without_point());
        for (length, times) in self.by_length.iter().enumerate().skip(1) {
            let possible = [length >= SHORTEST_GOOD, length >= SHORTEST_TOO_LARGE, true];
            for (place, word) in ["good", "too large", "too fine"].iter().enumerate() {
                // One byte has nine texts that are no zero.
                let fewest = if length == 1 { 9 } else { FEWEST_OF_A_LENGTH };
                if possible[place] && times[place] < fewest {
                    found.push(format!(
                        "fewer than {fewest} reals of {length} bytes without a point are {word}"
                    ));
                }
            }
        }
        found
    }
}

fn sight_of(text: &[u8], kind: u32) -> Sight {
    let digits: Vec<u8> = text
        .iter()
        .skip_while(|byte| !byte.is_ascii_digit())
        .take_while(|byte| byte.is_ascii_digit())
        .copied()
        .collect();
    let not_zero = |&digit: &u8| digit != b'0';
    let first = digits.iter().position(not_zero).unwrap_or(0);
    let last = digits.iter().rposition(not_zero).unwrap_or(0);
    Sight {
        outer: last + 1 - first,
        digits: digits.len(),
        text: text.to_vec(),
        kind,
    }
}

fn demand_same_reading(reading: &str, text: &[u8], second: Reading, desk: Reading) {
    if second == desk {
        return;
    }
    let shown = &text[..text.len().min(SHOWN)];
    let cut = if shown.len() < text.len() {
        " and so on"
    } else {
        ""
    };
    println!("mismatch in the {reading} reading of {} bytes", text.len());
    println!("text    \"{}\"{cut}", shown.escape_ascii());
    for (who, Reading { kind, value, byte }) in [("second", second), ("desk", desk)] {
        println!("{who:<7} kind {kind} value {value} byte {byte}");
    }
    exit(1);
}

fn count(tally: &mut Tally, kind: u32) {
    let place = KINDS.iter().position(|&known| known == kind);
    tally[place.expect("number.rs answers only the kinds of the table")] += 1;
}

fn print_table(counts: &Counts) {
    println!("texts compared {}", counts.texts);
    println!("{:>5} {:>10} {:>10}", "kind", "integers", "reals");
    for (place, kind) in KINDS.iter().enumerate() {
        println!(
            "{kind:>5} {:>10} {:>10}",
            counts.integers[place], counts.reals[place]
        );
    }
    counts.pointless.print();
    for bytes in &counts.bytes {
        bytes.print();
    }
}

fn never_seen(tally: &Tally, wanted: &[u32]) -> Vec<u32> {
    let seen = |kind: &u32| {
        KINDS
            .iter()
            .zip(tally)
            .any(|(known, times)| known == kind && *times > 0)
    };
    wanted.iter().copied().filter(|kind| !seen(kind)).collect()
}

/// Says what the run left out, if anything.
fn shortcomings(counts: &Counts) -> Vec<String> {
    let mut found = Vec::new();
    if counts.texts < FEWEST_TEXTS {
        found.push(format!("fewer than {FEWEST_TEXTS} texts"));
    }
    for kind in never_seen(&counts.integers, INTEGER_KINDS) {
        found.push(format!("kind {kind} never seen for integers"));
    }
    for kind in never_seen(&counts.reals, REAL_KINDS) {
        found.push(format!("kind {kind} never seen for reals"));
    }
    for (reading, tally) in [("integers", &counts.integers), ("reals", &counts.reals)] {
        if tally[0] * 10 < counts.texts {
            found.push(format!(
                "fewer than a tenth of the texts are good {reading}"
            ));
        }
    }
    found.extend(counts.pointless.shortcomings());
    found.extend(counts.bytes.iter().flat_map(VeryBytes::never_seen));
    found
}

fn main() {
    let mut counts = Counts::new();
    let desk = ask_all(USAGE, USUAL_SEED, FAMILIES, |text| {
        let readings = Readings::of(text);
        counts.add(&readings);
        readings
    });
    print_table(&counts);
    desk.end(shortcomings(&counts))
}
