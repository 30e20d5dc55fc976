//! Compares the check of a record A, the origin and the name of the C calls, asked through
//! PROGRAM (`examples/answers.c`), with those of record_a.rs; then the calls with a family, most
//! of all on Canadian blocks 0. Status 0: no difference. Status 1: a difference, or too little
//! was compared. Usage: compare_record_a PROGRAM [SEED]

use second::asking::{ask_all, four, Asking, Question};
use second::block::{Record, BLOCK_LENGTH};
use second::comparing::{self, finish};
use second::desk::{Call, OfFamily};
use second::dice::Dice;
use second::family::{CANADIAN, USGS};
use second::headers::{canadian, FAMILIES};
use second::kind::WRONG_FORM;
use second::pointless;
use second::record_a;
use second::spots;
use std::collections::BTreeMap;
use std::process::exit;

const USAGE: &str = "compare_record_a PROGRAM [SEED]";
const USUAL_SEED: u64 = 19_970_102;
const FEWEST_BLOCKS: u64 = 200_000;
const FEWEST_CANADIAN: u64 = 100_000;

const USGS_NUMBER: u32 = USGS as u32;
const CANADIAN_NUMBER: u32 = CANADIAN as u32;
/// One of so many Canadian blocks is asked about as USGS too, by the calls with a family and by
/// those without; another as a family that nobody knows.
const EVERY: u64 = 8;
const UNKNOWN: [u32; 8] = [2, 3, 255, 256, 257, 1 << 16, 1 << 31, u32::MAX];
/// And one of so many USGS blocks, of all kinds, by the calls with a family.
const EVERY_OF_USGS: u64 = 30;
/// One of so many that pass is looked at for reals without a point; of the refused all are.
const EVERY_PASSED: u64 = 5;

/// What one program says of a block.
#[derive(Clone, Copy, Debug, PartialEq)]
struct Findings {
    kind: u32,
    byte: u32,
    origin: u32,
    name_length: usize,
}

fn second_findings(block: &[u8]) -> Findings {
    let (kind, byte) = record_a::check(block).err().unwrap_or((0, 0));
    Findings {
        kind,
        byte,
        origin: record_a::origin(block),
        name_length: record_a::name_length(block),
    }
}

fn desk_findings(answer: &[u8]) -> Findings {
    Findings {
        kind: four(answer, 0),
        byte: four(answer, 4),
        origin: four(answer, 8),
        name_length: four(answer, 12) as usize,
    }
}

/// A block, counted from 0, with what the second program says of it.
struct Judged {
    number: u64,
    block: Vec<u8>,
    findings: Findings,
}

impl Question for Judged {
    fn sort(&self) -> u8 {
        b'a'
    }

    fn bytes(&self) -> &[u8] {
        &self.block
    }

    fn surroundings(&self) -> usize {
        2
    }

    /// Kind, byte, origin, length of the name.
    fn answer_length(&self) -> usize {
        16
    }

    fn demand_same(&self, answer: &[u8]) {
        let desk = desk_findings(answer);
        if self.findings == desk {
            return;
        }
        let (number, length) = (self.number, self.block.len());
        println!("mismatch in block {number} of {length} bytes");
        println!("second  {:?}", self.findings);
        println!("desk    {desk:?}");
        for (row, bytes) in self.block.chunks(64).enumerate().take(16) {
            println!("{:>5}  \"{}\"", row * 64 + 1, bytes.escape_ascii());
        }
        exit(1);
    }
}

#[derive(Default)]
struct Counts {
    blocks: u64,
    faults: BTreeMap<(u32, u32), u64>,
    origins: BTreeMap<u32, u64>,
    name_lengths: BTreeMap<usize, u64>,
    /// Reals without a point, and what came of them.
    pointless: comparing::Counts,
    /// Where in their fields faults of form stood.
    spots: comparing::Counts,
}

impl Counts {
    fn add(&mut self, block: &[u8], found: Findings) {
        self.blocks += 1;
        if found.kind != 0 || self.blocks.is_multiple_of(EVERY_PASSED) {
            see_pointless(&mut self.pointless, USGS, block, (found.kind, found.byte));
        }
        let fault = (found.kind, found.byte);
        see_spot(&mut self.spots, USGS, fault);
        *self.faults.entry(fault).or_default() += 1;
        *self.origins.entry(found.origin).or_default() += 1;
        *self.name_lengths.entry(found.name_length).or_default() += 1;
    }
}

fn see_pointless(seen: &mut comparing::Counts, family: i64, block: &[u8], fault: (u32, u32)) {
    if block.len() == BLOCK_LENGTH {
        for name in pointless::shown(family, Record::Header, block, fault) {
            seen.see(name);
        }
    }
}

fn see_spot(seen: &mut comparing::Counts, family: i64, fault: (u32, u32)) {
    if let Some(name) = spots::shown(family, Record::Header, fault) {
        seen.see(name);
    }
}

/// Every (kind, byte) that the rules of record A can give. Wrong form stands at any byte of a
/// number, everything else at the first.
fn faults_that_occur() -> Vec<(u32, u32)> {
    let mut all = vec![(0, 0), (1, 0), (5, 1), (5, 865)];
    all.extend([(10, 547), (10, 817), (10, 859)]);
    let codes = [145, 151, 157, 163, 529, 535, 541, 811, 853];
    all.extend(codes.map(|byte| (9, byte)));
    let corners = (0..8).map(|place| 547 + place * 24);
    let reals = corners.chain([739, 763, 787, 817, 829, 841]);
    all.extend(reals.flat_map(|byte| [(7, byte), (8, byte)]));
    all.extend([(9, 787), (7, 859)]);
    all.extend(faults_of_form(USGS));
    all
}

fn faults_of_form(family: i64) -> impl Iterator<Item = (u32, u32)> {
    let bytes = spots::number_bytes(family, Record::Header);
    bytes.into_iter().map(|byte| (WRONG_FORM, byte))
}

/// Those of form are too many for a table; their spots have one.
fn print_faults(faults: &BTreeMap<(u32, u32), u64>) {
    for ((kind, byte), times) in faults.iter().filter(|(fault, _)| fault.0 != WRONG_FORM) {
        println!("{kind:>5} {byte:>5} {times:>8}");
    }
}

/// Faults that a run never met, or met though no rule gives them.
fn unmet(of: &str, known: &[(u32, u32)], met: &BTreeMap<(u32, u32), u64>) -> Vec<String> {
    let missing = known.iter().filter(|fault| !met.contains_key(fault));
    let strange = met.keys().filter(|fault| !known.contains(fault));
    let never = missing.map(|(kind, byte)| format!("{of}kind {kind} at {byte} never seen"));
    never
        .chain(strange.map(|(kind, byte)| format!("{of}kind {kind} at {byte} has no rule")))
        .collect()
}

/// Says what the run left out, or met though no rule gives it.
fn shortcomings(counts: &Counts) -> Vec<String> {
    let mut found = Vec::new();
    if counts.blocks < FEWEST_BLOCKS {
        found.push(format!("fewer than {FEWEST_BLOCKS} blocks"));
    }
    let passed = counts.faults.get(&(0, 0)).unwrap_or(&0);
    if passed * 10 < counts.blocks {
        found.push("fewer than a tenth of the blocks pass".to_string());
    }
    found.extend(unmet("", &faults_that_occur(), &counts.faults));
    for origin in (0..=6).filter(|origin| !counts.origins.contains_key(origin)) {
        found.push(format!("origin {origin} never seen"));
    }
    for length in (0..=40).filter(|length| !counts.name_lengths.contains_key(length)) {
        found.push(format!("no name of {length} bytes"));
    }
    found.extend(counts.pointless.never_seen(&pointless::of_headers(USGS)));
    found
}

fn print_tables(counts: &Counts) {
    println!("blocks compared {}", counts.blocks);
    println!("{:>5} {:>5} {:>8}", "kind", "byte", "blocks");
    print_faults(&counts.faults);
    counts
        .spots
        .print("wrong form", &spots::wanted(USGS, &[Record::Header]));
    println!("origins {:?}", counts.origins);
    println!("name lengths {:?}", counts.name_lengths);
    counts
        .pointless
        .print("without a point", &pointless::of_headers(USGS));
}

/// The calls with a family: what was asked, and what came of it.
struct OfFamilies {
    desk: Asking<Call>,
    asked: BTreeMap<String, u64>,
    faults: BTreeMap<(u32, u32), u64>,
    origins: BTreeMap<u32, u64>,
    blocks: u64,
    pointless: comparing::Counts,
    spots: comparing::Counts,
}

impl OfFamilies {
    fn open() -> OfFamilies {
        let program = std::env::args().nth(1).expect("looked at before");
        OfFamilies {
            desk: Asking::of(&program).unwrap_or_else(|fault| finish(&[fault])),
            asked: BTreeMap::new(),
            faults: BTreeMap::new(),
            origins: BTreeMap::new(),
            blocks: 0,
            pointless: comparing::Counts::default(),
            spots: comparing::Counts::default(),
        }
    }

    fn ask(&mut self, family: u32, block: &[u8]) -> OfFamily {
        let found = OfFamily::of(family, block);
        self.desk.ask(found.call(family, block));
        found
    }

    fn see(&mut self, what: &str) {
        *self.asked.entry(what.to_string()).or_default() += 1;
    }

    fn canadian(&mut self, block: &[u8]) {
        let found = self.ask(CANADIAN_NUMBER, block);
        let fault = (found.kind, found.byte);
        if fault.0 != 0 || self.blocks.is_multiple_of(EVERY_PASSED) {
            see_pointless(&mut self.pointless, CANADIAN, block, fault);
        }
        see_spot(&mut self.spots, CANADIAN, fault);
        *self.faults.entry(fault).or_default() += 1;
        *self.origins.entry(found.origin).or_default() += 1;
        if found.kind == 0 && record_a::check(block).is_ok() {
            self.see("obeys both families");
            self.ask(USGS_NUMBER, block);
        }
        match self.blocks % EVERY {
            0 => {
                self.see("Canadian, asked about as USGS");
                self.ask(USGS_NUMBER, block);
            }
            1 => {
                let family = UNKNOWN[(self.blocks / EVERY) as usize % UNKNOWN.len()];
                let found = self.ask(family, block);
                self.see(&format!("unknown family, kind {}", found.kind));
            }
            _ => {}
        }
        self.blocks += 1;
    }

    fn usgs(&mut self, block: &[u8]) {
        let found = self.ask(USGS_NUMBER, block);
        assert_eq!(
            record_a::check(block).err().unwrap_or((0, 0)),
            (found.kind, found.byte)
        );
        self.see("USGS, asked about as such");
        self.ask(CANADIAN_NUMBER, block);
        self.see("USGS, asked about as Canadian");
    }

    /// Canadian blocks, and these USGS ones.
    fn ask_all(&mut self, seed: u64, usgs: &[Vec<u8>]) {
        let dice = &mut Dice::new(!seed);
        for family in canadian::FAMILIES {
            let before = self.blocks;
            (family.make)(dice, &mut |block| self.canadian(block));
            println!("{:<32} {:>6}", family.name, self.blocks - before);
        }
        for block in usgs {
            self.usgs(block);
        }
        self.desk.hold_against_answers();
    }

    fn print_tables(&self) {
        println!("Canadian blocks compared {}", self.blocks);
        print_faults(&self.faults);
        self.spots
            .print("wrong form", &spots::wanted(CANADIAN, &[Record::Header]));
        println!("origins {:?}", self.origins);
        println!("besides {:?}", self.asked);
        self.pointless
            .print("without a point", &pointless::of_headers(CANADIAN));
    }

    fn shortcomings(&self) -> Vec<String> {
        let mut found = Vec::new();
        if self.blocks < FEWEST_CANADIAN {
            found.push(format!("fewer than {FEWEST_CANADIAN} Canadian blocks"));
        }
        if self.faults.get(&(0, 0)).unwrap_or(&0) * 10 < self.blocks {
            found.push("fewer than a tenth of the Canadian blocks pass".to_string());
        }
        found.extend(unmet("Canadian, ", &canadian_faults(), &self.faults));
        found.extend(self.pointless.never_seen(&pointless::of_headers(CANADIAN)));
        for origin in (0..=15).filter(|origin| !self.origins.contains_key(origin)) {
            found.push(format!("Canadian origin {origin} never seen"));
        }
        for what in [
            "obeys both families",
            "unknown family, kind 1",
            "unknown family, kind 2",
        ] {
            if !self.asked.contains_key(what) {
                found.push(format!("{what}: never seen"));
            }
        }
        found
    }
}

/// Every (kind, byte) that the rules of a Canadian record A can give. n at the columns is none of
/// them: both are 1201 by rules of their own.
fn canadian_faults() -> Vec<(u32, u32)> {
    let mut all = vec![(0, 0), (1, 0), (15, 110), (10, 547), (10, 817)];
    let stretches = [1, 41, 101, 136, 137, 138, 865];
    all.extend(stretches.map(|byte| (5, byte)));
    all.extend([114, 127].map(|byte| (7, byte)));
    all.extend([116, 129].iter().flat_map(|&byte| [(7, byte), (8, byte)]));
    all.extend(faults_of_form(CANADIAN));
    let of_usgs = faults_that_occur().into_iter();
    let others = of_usgs.filter(|fault| fault.0 >= 6 && ![(10, 859)].contains(fault));
    all.extend(others);
    all.sort_unstable();
    all.dedup();
    all
}

fn seed() -> u64 {
    let given = std::env::args().nth(2);
    given.map_or(USUAL_SEED, |text| text.parse().expect("looked at before"))
}

fn main() {
    let mut counts = Counts::default();
    let mut some = Vec::new();
    let desk = ask_all(USAGE, USUAL_SEED, FAMILIES, |block| {
        let (number, findings) = (counts.blocks, second_findings(block));
        counts.add(block, findings);
        if number % EVERY_OF_USGS == 0 {
            some.push(block.to_vec());
        }
        Judged {
            number,
            block: block.to_vec(),
            findings,
        }
    });
    print_tables(&counts);
    let mut of_families = OfFamilies::open();
    of_families.ask_all(seed(), &some);
    of_families.print_tables();
    let mut found = shortcomings(&counts);
    found.extend(of_families.shortcomings());
    found.extend(of_families.desk.done().err());
    desk.end(found)
}
