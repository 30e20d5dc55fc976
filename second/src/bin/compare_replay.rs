//! Runs a `replay` program on scripts and compares what it writes, byte for byte, with
//! what this program's own loader says. Status 0: no difference. Status 1: a difference,
//! or too little was compared. Usage: compare_replay PROGRAM [SEED] [SCRIPTS]

use second::block::Record;
use second::comparing::{self, line_difference, Asked, Counts, Mismatch};
use second::family::USGS;
use second::kind::WRONG_FORM;
use second::load::Answer;
use second::meaning::{Figures, Refusal};
use second::pointless;
use second::replay::{self, Event, Outcome};
use second::scripts::accident::THE_CUSTOMERS_ACCIDENT;
use second::scripts::{self, FAMILIES};
use second::spots;
use std::collections::BTreeMap;

const USAGE: &str = "compare_replay PROGRAM [SEED] [SCRIPTS]";
const USUAL_SCRIPTS: usize = 4_000;
const FEWEST_SCRIPTS: usize = 3_000;
/// Kind 2 needs a session handed in from outside, which a script cannot do.
const KINDS: [u32; 11] = [1, 3, 4, 5, 6, 7, 8, 9, 10, 11, 12];
/// Where a posts field may stand; the rules for posts are the same at every byte.
const ANY_BYTE: u32 = u32::MAX;

/// Answers by what they are about. Taken is kind 0, held kind -1.
#[derive(Default)]
struct Tally {
    scripts: usize,
    bad_scripts: usize,
    families: BTreeMap<&'static str, usize>,
    answers: BTreeMap<i64, usize>,
    /// The answers after which a script ended and its grid was seen.
    last_answers: BTreeMap<i64, usize>,
    /// By awaited record, kind and byte; posts and rests together under ANY_BYTE.
    places: BTreeMap<Place, usize>,
    /// What the sums in the session lines were.
    sums: Counts,
    /// In how many scripts a real without a point was taken, or refused.
    pointless: Counts,
    /// Where in their fields faults of form stood.
    spots: Counts,
}

impl Tally {
    fn add(&mut self, family: &'static str, outcome: &Outcome) {
        self.scripts += 1;
        self.bad_scripts += usize::from(outcome.bad());
        *self.families.entry(family).or_default() += 1;
        for name in &outcome.pointless {
            self.pointless.see(name);
        }
        for event in &outcome.events {
            let (kind, byte) = kind_and_byte(event);
            *self.answers.entry(kind).or_default() += 1;
            let place = (event.awaited, kind, byte);
            *self.places.entry(place).or_default() += 1;
            if let Some(name) = spot_of(event) {
                self.spots.see(name);
            }
        }
        if let (Some(event), Some(figures)) = (outcome.events.last(), &outcome.figures) {
            let (kind, _) = kind_and_byte(event);
            *self.last_answers.entry(kind).or_default() += 1;
            let seen = SUMS.iter().filter(|(_, seen)| seen(event, figures));
            for (name, _) in seen {
                self.sums.see(*name);
            }
        }
    }
}

fn spot_of(event: &Event) -> Option<String> {
    match event.answer {
        Answer::Refused(refusal) => {
            spots::shown(USGS, event.awaited?, (refusal.kind, refusal.byte))
        }
        _ => None,
    }
}

fn spots_wanted() -> Vec<String> {
    spots::wanted(USGS, &Record::ALL)
}

/// What a script's last delivery met and what its session line then says.
type Sight = (&'static str, fn(&Event, &Figures) -> bool);

/// Sums that some script must have ended with.
const SUMS: [Sight; 9] = [
    ("above zero", |_, f| f.sum > 0),
    ("below zero", |_, f| f.sum < 0),
    ("zero, with cells filled", |_, f| f.sum == 0 && f.filled > 0),
    ("past 32 bits above zero", |_, f| {
        f.sum > i64::from(i32::MAX)
    }),
    ("past 32 bits below zero", |_, f| {
        f.sum < i64::from(i32::MIN)
    }),
    ("with voids among the posts", |_, f| {
        f.sum != 0 && f.filled < f.posts
    }),
    ("with a profile left open", |event, f| {
        let within = event.awaited == Some(Record::ProfileRest);
        within && event.answer != Answer::Taken && f.sum != 0
    }),
    ("refused by a closing rule", |event, f| {
        kind_and_byte(event).0 == 11 && f.sum != 0
    }),
    ("after a record C", |event, f| {
        let last = event.awaited == Some(Record::Statistics);
        last && event.answer == Answer::Taken && f.sum != 0
    }),
];

fn sums_wanted() -> [&'static str; SUMS.len()] {
    SUMS.map(|(name, _)| name)
}

/// A fault of form counts for its field here, whichever of the bytes it stands at.
fn kind_and_byte(event: &Event) -> (i64, u32) {
    match event.answer {
        Answer::Taken => (0, 0),
        Answer::Held => (-1, 0),
        Answer::Refused(refusal) => {
            let kind = i64::from(refusal.kind);
            let among_posts = match event.awaited {
                Some(Record::ProfileStart) => refusal.kind < 11 && refusal.byte >= 145,
                Some(Record::ProfileRest) => refusal.kind < 11 && refusal.byte >= 1,
                _ => false,
            };
            (
                kind,
                if among_posts {
                    ANY_BYTE
                } else {
                    place_of(event, refusal)
                },
            )
        }
    }
}

fn place_of(event: &Event, refusal: Refusal) -> u32 {
    let field = match (event.awaited, refusal.kind) {
        (Some(record), WRONG_FORM) => spots::first_of_field(USGS, record, refusal.byte),
        _ => None,
    };
    field.unwrap_or(refusal.byte)
}

/// The family of script `number` and what it met, or where the program differs.
fn compare(asked: &Asked, number: usize) -> Result<(&'static str, Outcome), Mismatch> {
    let made = scripts::make(asked.seed, number);
    let mut expected = replay::run(&made.bytes);
    comparing::demand_same(asked, "script", number, &made, |found| {
        line_difference(expected.output.as_bytes(), found)
    })?;
    // Thousands of outcomes are kept for counting; their long outputs need not be.
    expected.output = String::new();
    Ok((made.family, expected))
}

/// The record awaited, a kind, a byte.
type Place = (Option<Record>, i64, u32);

fn places(record: Option<Record>, rules: &[(i64, u32)]) -> Vec<Place> {
    let of_rule = |&(kind, byte): &(i64, u32)| (record, kind, byte);
    rules.iter().map(of_rule).collect()
}

/// Every rule that some delivery must have met, by the record then awaited.
fn places_wanted() -> Vec<Place> {
    let common = [(0, 0), (1, 0), (3, 0), (12, 0)];
    let header = [(5, 1), (5, 865), (10, 547), (10, 817), (10, 859)];
    let complete = [(-1, 0), (1, 0), (3, 0), (4, 0)];
    let further = [(-1, 0), (11, 97), (11, 121), (11, 739), (11, 763)];
    let posts = [(5, ANY_BYTE), (6, ANY_BYTE), (7, ANY_BYTE)];
    let mut wanted = places(None, &complete);
    wanted.extend(places(Some(Record::Header), &common));
    wanted.extend(places(Some(Record::Header), &header));
    for record in [Record::ProfileStart, Record::ProfileRest] {
        for rules in [&common[..], &further, &posts] {
            wanted.extend(places(Some(record), rules));
        }
    }
    wanted.extend(places(Some(Record::ProfileStart), &rules_of_a_start()));
    wanted.extend(places(Some(Record::Statistics), &common));
    wanted.extend(places(Some(Record::Statistics), &rules_of_statistics()));
    wanted
}

/// The fields of a profile's first block, and its two place rules.
fn rules_of_a_start() -> Vec<(i64, u32)> {
    let mut rules = vec![(6, 13), (7, 13), (10, 25), (10, 49)];
    for byte in [1, 7, 19] {
        rules.extend([(6, byte), (9, byte)]);
    }
    for byte in [25, 49, 73, 97, 121] {
        rules.extend([(6, byte), (7, byte), (8, byte)]);
    }
    rules
}

/// Both codes and the eight numbers under them; a negative code is a wrong code.
fn rules_of_statistics() -> Vec<(i64, u32)> {
    let mut rules = vec![(-1, 0), (5, 61)];
    for byte in (1..=55).step_by(6) {
        rules.extend([(6, byte), (9, byte)]);
        if byte != 1 && byte != 31 {
            rules.push((7, byte));
        }
    }
    rules
}

fn shortcomings(tally: &Tally) -> Vec<String> {
    let mut found = Vec::new();
    if tally.scripts < FEWEST_SCRIPTS {
        found.push(format!("fewer than {FEWEST_SCRIPTS} scripts"));
    }
    if tally.bad_scripts == 0 {
        found.push("no bad script".to_string());
    }
    for kind in KINDS.into_iter().map(i64::from).chain([0, -1]) {
        if !tally.answers.contains_key(&kind) {
            found.push(format!("{} never seen", name_of(kind)));
        }
        if !tally.last_answers.contains_key(&kind) {
            found.push(format!("no script ends after {}", name_of(kind)));
        }
    }
    for place in places_wanted() {
        if !tally.places.contains_key(&place) {
            let (record, kind, byte) = place;
            found.push(format!("{} {record:?} at {byte} never seen", name_of(kind)));
        }
    }
    let unseen = tally.sums.never_seen(&sums_wanted());
    found.extend(unseen.iter().map(|name| format!("sum {name}")));
    found.extend(tally.pointless.never_seen(&pointless::of_sheets(USGS)));
    found.extend(tally.spots.never_seen(&spots_wanted()));
    for family in FAMILIES {
        if !tally.families.contains_key(family.name) {
            found.push(format!("no script of family {}", family.name));
        }
    }
    found
}

fn name_of(kind: i64) -> String {
    match kind {
        -1 => "held".to_string(),
        0 => "taken".to_string(),
        _ => format!("refused {kind}"),
    }
}

fn print_tables(tally: &Tally) {
    println!("scripts compared {}", tally.scripts);
    for family in FAMILIES {
        let times = tally.families.get(family.name).unwrap_or(&0);
        println!("{:<28} {times:>7}", family.name);
    }
    println!("bad scripts {}", tally.bad_scripts);
    let deliveries: usize = tally.answers.values().sum();
    println!("{:<28} {deliveries:>7}    last", "deliveries");
    for kind in [0, -1].into_iter().chain(KINDS.map(i64::from)) {
        let times = tally.answers.get(&kind).unwrap_or(&0);
        let last = tally.last_answers.get(&kind).unwrap_or(&0);
        println!("{:<28} {times:>7} {last:>7}", name_of(kind));
    }
    for byte in [97, 121, 739, 763] {
        let at_byte = tally.places.iter();
        let times: usize = at_byte
            .filter(|((_, kind, at), _)| *kind == 11 && *at == byte)
            .map(|(_, times)| times)
            .sum();
        println!("{:<28} {times:>7}", format!("  11 at byte {byte}"));
    }
    tally.sums.print("sums at the end", &sums_wanted());
    tally.pointless.print(
        "reals without a point, in scripts",
        &pointless::of_sheets(USGS),
    );
    tally.spots.print("wrong form", &spots_wanted());
    let accidents = tally.families.get(THE_CUSTOMERS_ACCIDENT).unwrap_or(&0);
    println!("run: {THE_CUSTOMERS_ACCIDENT}, {accidents} times");
}

fn main() {
    let outcomes = comparing::notes_of(USAGE, USUAL_SCRIPTS, compare);
    let mut tally = Tally::default();
    for (family, outcome) in &outcomes {
        tally.add(family, outcome);
    }
    print_tables(&tally);
    comparing::finish(&shortcomings(&tally));
}
