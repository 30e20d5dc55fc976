//! Compares the C calls on sessions and of the writer, asked through PROGRAM
//! (`examples/answers.c`), with what this program says of them: result, every number of the
//! session, every cell, every byte and slot lent. Status 0: no difference. Status 1: a
//! difference, or too little was compared. Usage: compare_desk PROGRAM [SEED]

use second::asking::Asking;
use second::block::Record;
use second::comparing::{arguments, finish, number, Counts};
use second::crafted::{self, families as of_families, sums, Crafted};
use second::desk::{self, Call, Delivery, Left};
use second::dice::Dice;
use second::family::{CANADIAN, USGS};
use second::kept::clauses::{self, clauses_of, FAMILY, NEGATIVE, TOO_FEW};
use second::kept::place::FAMILY as FAMILY_PLACE;
use second::kept::{self, name_of, HELD, NAMES, NUMBERS};
use second::kind::{CORNER_DISAGREES, GRID_TOO_SHORT, UNSOUND};
use second::pointless;
use second::presses;
use second::record_a::{self, Header};
use second::runs::shown::{self, Look, Seen};
use second::sheets::damage::damaged;
use second::sheets::{head, Sent};
use second::spots;
use second::writings::{self, Asked};

const USAGE: &str = "compare_desk PROGRAM [SEED]";
const USUAL_SEED: u64 = 19_970_106;
const FEWEST_CRAFTED: usize = 100_000;
const FEWEST_OF_SHEETS: usize = 3_000;
const FEWEST_CRAFTED_RUNS: usize = 20_000;
const FEWEST_RUNS_OF_SHEETS: usize = 2_000;
const FEWEST_BLOCKS: usize = 3_000;
const FEWEST_SHEETS: usize = 1_500;

/// A session with no column has fewer than n, so this clause is never broken alone.
const NEVER_ALONE: &[&str] = &["1 column or more"];
/// No Canadian session has accuracy 1, so a record C always breaks the clause on that too.
const NEVER_ALONE_IN_CANADA: &[&str] = &["a record C once at most", "a record C only after n"];

/// Numbers of a Canadian session that have one good value each, or go with a number that has.
const FIXED_IN_CANADA: [&str; 10] = [
    "level", "system", "zone", "ground", "vertical", "accuracy", "xstep", "ystep", "profiles",
    "finished",
];

struct Run {
    desk: Asking<Call>,
    dice: Dice,
    families: Counts,
    crafted: Counts,
    of_sheets: Counts,
    /// Clauses that alone made a session unsound.
    broken: Counts,
    /// Numbers that were altered alone, and what the session then was.
    altered: Counts,
    /// What deliveries to crafted sessions and of sheets showed about the sum.
    sums: Counts,
    /// And about the family.
    of_families: Counts,
    /// And about reals without a point; Canadian ones are for compare_canadian to see.
    pointless: Counts,
    /// Where in their fields faults of form stood: in single blocks, in blocks of runs, and in
    /// templates for a block and for a sheet.
    spots: [Counts; 4],
    crafted_runs: Seen,
    runs_of_sheets: Seen,
    /// What runs of both sorts showed.
    runs: Counts,
    sessions: Counts,
    /// What was lent, and what came of it.
    lent: Counts,
    blocks: Counts,
    sheets: Counts,
    hidden: Counts,
    hidden_of_sheets: Counts,
}

impl Run {
    fn begin() -> Run {
        let given = arguments(USAGE);
        let seed = number(&given, 1, USAGE).unwrap_or(USUAL_SEED);
        println!("seed {seed}");
        Run {
            desk: Asking::of(&given[0]).unwrap_or_else(|fault| finish(&[fault])),
            dice: Dice::new(seed),
            families: Counts::default(),
            crafted: Counts::default(),
            of_sheets: Counts::default(),
            broken: Counts::default(),
            altered: Counts::default(),
            sums: Counts::default(),
            of_families: Counts::default(),
            pointless: Counts::default(),
            spots: Default::default(),
            crafted_runs: Seen::default(),
            runs_of_sheets: Seen::default(),
            runs: Counts::default(),
            sessions: Counts::default(),
            lent: Counts::default(),
            blocks: Counts::default(),
            sheets: Counts::default(),
            hidden: Counts::default(),
            hidden_of_sheets: Counts::default(),
        }
    }

    /// Each part of the run has dice of its own.
    fn part(&mut self, work: impl Fn(&mut Run, &mut Dice)) {
        let mut dice = Dice::new(self.dice.roll());
        work(self, &mut dice);
    }

    fn open_sessions(&mut self, dice: &mut Dice) {
        for count in 0..3 * NUMBERS {
            let numbers: Vec<i64> = (0..count).map(|_| dice.roll() as i64).collect();
            let any = dice.roll() as u32;
            let family = *dice.pick(&[0, 0, 1, 1, 2, 255, any, u32::MAX]);
            self.families.see("sessions opened");
            self.desk.ask(desk::open(family, &numbers));
        }
    }

    fn deliver_to_crafted(&mut self, dice: &mut Dice) {
        for family in crafted::FAMILIES {
            let mut ask_dice = Dice::new(dice.roll());
            (family.make)(dice, &mut |made| {
                self.families.see(family.name);
                self.ask_crafted(&mut ask_dice, made);
            });
        }
    }

    fn ask_crafted(&mut self, dice: &mut Dice, made: Crafted) {
        let delivery = made.delivery;
        let left = delivery.leaves();
        self.crafted.see(name_of(left.told.result));
        for name in lent_names(&delivery, left.told.result) {
            self.lent.see(name);
        }
        self.see_sum(&delivery, &left);
        self.see_pointless(&delivery, &left);
        self.see_spot(BLOCKS, &left);
        for name in of_families::shown(&delivery, &left) {
            self.of_families.see(name);
        }
        let broken = clauses::broken(&delivery.numbers);
        if let [clause] = broken[..] {
            let family = delivery.numbers.get(FAMILY_PLACE).copied().unwrap_or(USGS);
            self.broken.see(clause_name(family, clause));
        }
        if let Some((family, place)) = made.altered {
            self.altered
                .see(altered_name(family, place, broken.is_empty()));
        }
        self.desk.ask(delivery.call(&left));
        self.ask_about(dice, &delivery.numbers);
        if left.told.result == kept::DONE {
            self.ask_about(dice, &left.numbers);
        }
    }

    fn see_sum(&mut self, delivery: &Delivery, left: &Left) {
        for name in sums::shown(delivery, left) {
            self.sums.see(name);
        }
    }

    fn see_pointless(&mut self, delivery: &Delivery, left: &Left) {
        let (numbers, number) = (&delivery.numbers, delivery.number);
        for name in pointless::shown_by_delivery(numbers, number, &delivery.block, left.told) {
            self.pointless.see(name);
        }
    }

    fn see_spot(&mut self, of: usize, left: &Left) {
        if let Some(name) = spots::shown_by_delivery(&left.numbers, left.told) {
            self.spots[of].see(name);
        }
    }

    /// Sound, complete, and a report into too little room, just enough, or more.
    fn ask_about(&mut self, dice: &mut Dice, numbers: &[i64]) {
        let kept = kept::sound(numbers);
        let report = kept.as_ref().and_then(|kept| kept.report());
        let length = match &report {
            Some(text) => (text.len() as i64 + *dice.pick(&[-1, 0, 0, 1, 40])) as usize,
            None => *dice.pick(&[0, 1, 200]),
        };
        self.sessions.see(match (&kept, &report) {
            (None, _) => "unsound",
            (Some(_), None) => "sound, not complete",
            (_, Some(text)) if text.len() > length => "complete, too little room",
            _ => "complete and reported",
        });
        self.desk.ask(desk::session(numbers, length));
    }

    fn send_sheets(&mut self, dice: &mut Dice) {
        let mut ask_dice = Dice::new(dice.roll());
        presses::all(dice, &mut |delivery: Delivery, left: Left| {
            self.families.see("whole sheets over a poor line");
            self.of_sheets.see(name_of(left.told.result));
            self.see_sum(&delivery, &left);
            self.see_pointless(&delivery, &left);
            self.see_spot(BLOCKS, &left);
            self.desk.ask(delivery.call(&left));
            self.ask_about(&mut ask_dice, &left.numbers);
        });
    }

    fn run_to_crafted(&mut self, dice: &mut Dice) {
        crafted::runs::all(dice, &mut |delivery| {
            let left = delivery.leaves_by_run();
            self.see_run(&delivery, &left, |run| &mut run.crafted_runs);
            self.desk.ask(delivery.call(&left));
        });
    }

    /// Single calls stand between the runs.
    fn send_sheets_by_runs(&mut self, dice: &mut Dice) {
        presses::by_runs(dice, &mut |delivery, left| {
            self.see_run(&delivery, &left, |run| &mut run.runs_of_sheets);
            self.desk.ask(delivery.call(&left));
        });
    }

    fn see_run(&mut self, delivery: &Delivery, left: &Left, seen: fn(&mut Run) -> &mut Seen) {
        if let Some(look) = Look::at(delivery, left) {
            self.see_spot(RUNS, left);
            seen(self).see(&look);
            for name in shown::shown(&look) {
                self.runs.see(name);
            }
        }
    }

    /// Records A of every size, and damaged ones, at times of another length.
    fn size_headers(&mut self, dice: &mut Dice) {
        for turn in 0..6_000 {
            let mut side = || {
                let any = dice.between(1, 2048);
                *dice.pick(&[1, 2, 2047, 2048, any])
            };
            let (columns, rows) = (side(), side());
            let mut block = head::head(dice, columns, rows).block(dice);
            if turn % 2 == 1 {
                let record = Record::Header;
                block = damaged(
                    dice,
                    &Sent {
                        record,
                        bytes: block,
                    },
                );
            }
            if turn % 16 == 1 {
                block.resize(*dice.pick(&[0, 1, 1023, 1025, 2048]), b' ');
            }
            self.families.see(match record_a::check(&block) {
                Ok(_) => "columns and rows",
                Err(_) => "columns and rows, refused",
            });
            self.desk.ask(desk::columns(&block));
        }
    }

    fn write(&mut self, dice: &mut Dice) {
        writings::blocks(dice, &mut |asked| self.ask_writer(asked));
        writings::sheets(dice, &mut |asked| self.ask_writer(asked));
        writings::of_every_shape(dice, &mut |asked| self.ask_writer(asked));
    }

    fn ask_writer(&mut self, asked: Asked) {
        let (told, hidden, spots) = match asked.whole {
            false => (&mut self.blocks, &mut self.hidden, BLOCK_TEMPLATES),
            true => (
                &mut self.sheets,
                &mut self.hidden_of_sheets,
                SHEET_TEMPLATES,
            ),
        };
        told.see(writings::name_of(asked.told));
        if let Some(name) = spots::shown(USGS, Record::Header, asked.told) {
            self.spots[spots].see(name);
        }
        for pair in asked.hidden() {
            hidden.see(pair);
        }
        if asked.gives_a_point {
            self.pointless.see(POINT_GIVEN[usize::from(asked.whole)]);
        }
        self.desk.ask(asked.call);
    }

    fn print_tables(&self) {
        self.families.print("calls", &families());
        println!("deliveries to crafted sessions {}", self.crafted.all());
        self.crafted.print("  answers", &answers());
        self.broken
            .print("  unsound by this clause alone", &broken_alone());
        self.altered
            .print("  this number altered alone", &altered_names());
        self.lent.print("  lent", &all_lent_names());
        self.sums.print("the sum", &sums::sights());
        self.of_families.print("the family", &of_families::sights());
        self.pointless
            .print("reals without a point", &pointless_wanted());
        for ((title, wanted), met) in spots_wanted().iter().zip(&self.spots) {
            met.print(&format!("wrong form, {title}"), wanted);
        }
        self.sessions.print("sound, complete, report", &SESSIONS);
        self.of_sheets
            .print("whole sheets over a poor line", &answers_of_sheets());
        self.crafted_runs
            .print("runs to crafted sessions", &answers());
        self.runs_of_sheets
            .print("runs of whole sheets", &answers_of_runs());
        self.runs.print("runs of both sorts", &shown::sights());
        self.blocks.print("dem_write_block", &told_of_a_block());
        self.hidden
            .print("  which refusal comes first", &writings::pairs_of_a_block());
        self.sheets.print("dem_write_sheet", &told_of_a_sheet());
        self.hidden_of_sheets
            .print("  which refusal comes first", &writings::pairs_of_a_sheet());
    }

    fn too_few(&self) -> Vec<String> {
        let (crafted, sheets) = (&self.crafted_runs.answers, &self.runs_of_sheets.answers);
        let fewest = [
            (FEWEST_CRAFTED, "crafted deliveries", &self.crafted),
            (FEWEST_OF_SHEETS, "deliveries of sheets", &self.of_sheets),
            (FEWEST_CRAFTED_RUNS, "crafted runs", crafted),
            (FEWEST_RUNS_OF_SHEETS, "runs of sheets", sheets),
            (FEWEST_BLOCKS, "blocks of the writer", &self.blocks),
            (FEWEST_SHEETS, "sheets of the writer", &self.sheets),
        ];
        let short = fewest.iter().filter(|few| few.2.all() < few.0);
        short
            .map(|(fewest, what, _)| format!("fewer than {fewest} {what}"))
            .collect()
    }

    fn shortcomings(&self) -> Vec<String> {
        let mut found = self.too_few();
        found.extend(self.families.never_seen(&families()));
        found.extend(self.crafted.never_seen(&answers()));
        found.extend(self.broken.never_seen(&broken_alone()));
        found.extend(self.altered.never_seen(&altered_names()));
        found.extend(self.sums.never_seen(&sums::sights()));
        found.extend(self.of_families.never_seen(&of_families::sights()));
        found.extend(self.pointless.never_seen(&pointless_wanted()));
        for ((title, wanted), met) in spots_wanted().iter().zip(&self.spots) {
            let unseen = met.never_seen(wanted).into_iter();
            found.extend(unseen.map(|name| format!("{title}, {name}")));
        }
        found.extend(self.sessions.never_seen(&SESSIONS));
        found.extend(self.lent.never_seen(&all_lent_names()));
        found.extend(self.of_sheets.never_seen(&answers_of_sheets()));
        found.extend(self.crafted_runs.answers.never_seen(&answers()));
        found.extend(self.runs_of_sheets.answers.never_seen(&answers_of_runs()));
        found.extend(self.runs.never_seen(&shown::sights()));
        found.extend(self.blocks.never_seen(&told_of_a_block()));
        found.extend(self.sheets.never_seen(&told_of_a_sheet()));
        found.extend(self.hidden.never_seen(&writings::pairs_of_a_block()));
        found.extend(
            self.hidden_of_sheets
                .never_seen(&writings::pairs_of_a_sheet()),
        );
        found
    }
}

/// What a delivery shows about the slices lent to it.
fn lent_names(delivery: &Delivery, result: u32) -> Vec<String> {
    let word = match result {
        kept::DONE => "taken",
        HELD => "held",
        _ => "refused",
    };
    let mut names = vec![format!("answer of {}, {word}", delivery.room)];
    if delivery.numbers.len() > NUMBERS {
        names.push(format!("numbers past the session, {word}"));
    }
    let size = |header: &Header| header.cells();
    let need = match (kept::sound(&delivery.numbers), delivery.number) {
        (Some(kept), 0) => record_a::check_of(kept.header.family, &delivery.block)
            .as_ref()
            .map_or(0, size),
        (Some(kept), _) if kept.taken > 0 => size(&kept.header),
        _ => return names,
    };
    let judged = result == kept::DONE || result == GRID_TOO_SHORT;
    let words = match delivery.grid.len() {
        0 => "no grid",
        length if length + 1 == need => "grid a cell short",
        length if length == need => "grid just enough",
        length if length > need => "grid to spare",
        _ => "grid far too short",
    };
    if judged {
        names.push(format!("{words}, {word}"));
    }
    names
}

fn all_lent_names() -> Vec<String> {
    let mut names = Vec::new();
    for word in ["taken", "held", "refused"] {
        names.extend((0..=4).map(|room| format!("answer of {room}, {word}")));
        names.push(format!("numbers past the session, {word}"));
    }
    let grids = ["no grid, refused", "grid a cell short, refused"];
    names.extend(grids.map(String::from));
    let grids = ["grid just enough, taken", "grid to spare, taken"];
    names.extend(grids.map(String::from));
    names
}

/// A template's spacing without a point, which is read anew and sent with one.
const POINT_GIVEN: [&str; 2] = [
    "dem_write_block, point given to a spacing",
    "dem_write_sheet, point given to a spacing",
];

fn pointless_wanted() -> Vec<String> {
    let mut names = pointless::of_sheets(USGS);
    names.extend(POINT_GIVEN.map(String::from));
    names
}

/// Places of `spots`.
const BLOCKS: usize = 0;
const RUNS: usize = 1;
const BLOCK_TEMPLATES: usize = 2;
const SHEET_TEMPLATES: usize = 3;

/// What is Canadian is for compare_canadian to see.
fn spots_wanted() -> [(&'static str, Vec<String>); 4] {
    let all = || spots::wanted(USGS, &Record::ALL);
    let template = || spots::wanted(USGS, &[Record::Header]);
    [
        ("single blocks", all()),
        ("runs", all()),
        ("dem_write_block", template()),
        ("dem_write_sheet", template()),
    ]
}

const SESSIONS: [&str; 4] = [
    "unsound",
    "sound, not complete",
    "complete, too little room",
    "complete and reported",
];

fn families() -> Vec<&'static str> {
    let mut names = vec!["sessions opened"];
    names.extend(crafted::FAMILIES.iter().map(|family| family.name));
    names.extend(["whole sheets over a poor line", "columns and rows"]);
    names.push("columns and rows, refused");
    names
}

fn answers() -> Vec<String> {
    let kinds = (1..=12).chain([CORNER_DISAGREES]).map(name_of);
    [kept::DONE, HELD]
        .map(name_of)
        .into_iter()
        .chain(kinds)
        .collect()
}

/// The desk's own sessions are sound, and these sheets USGS.
fn answers_of_runs() -> Vec<String> {
    let mut names = answers();
    let others = [UNSOUND, CORNER_DISAGREES].map(name_of);
    names.retain(|name| !others.contains(name));
    names
}

/// With single deliveries, its grids are long enough too.
fn answers_of_sheets() -> Vec<String> {
    let mut names = answers_of_runs();
    names.retain(|name| *name != name_of(GRID_TOO_SHORT));
    names
}

/// A clause that both families have counts for each.
fn clause_name(family: i64, clause: &str) -> String {
    match family {
        CANADIAN => format!("Canadian, {clause}"),
        _ => clause.to_string(),
    }
}

fn broken_alone() -> Vec<String> {
    let mut names = [TOO_FEW, NEGATIVE, FAMILY].map(String::from).to_vec();
    for (family, never) in [(USGS, NEVER_ALONE), (CANADIAN, NEVER_ALONE_IN_CANADA)] {
        let clauses = clauses_of(family).filter(|(name, _)| !never.contains(name));
        names.extend(clauses.map(|(name, _)| clause_name(family, name)));
    }
    names
}

fn altered_name(family: i64, place: usize, sound: bool) -> String {
    let word = if sound { "sound" } else { "unsound" };
    format!("{}, {word}", clause_name(family, NAMES[place]))
}

fn altered_names() -> Vec<String> {
    let mut names = Vec::new();
    for (place, name) in NAMES.iter().enumerate() {
        names.extend([true, false].map(|sound| altered_name(USGS, place, sound)));
        names.push(altered_name(CANADIAN, place, false));
        if !FIXED_IN_CANADA.contains(name) {
            names.push(altered_name(CANADIAN, place, true));
        }
    }
    names
}

fn told_of_a_block() -> Vec<String> {
    let mut names = told_of_a_sheet();
    names.push(writings::name_of((14, 0)));
    names
}

fn told_of_a_sheet() -> Vec<String> {
    let told = [(0, 0), (1, 0), (1, 1), (5, 0), (6, 0), (7, 0), (8, 0)];
    let more = [(9, 0), (10, 0), (12, 0), (13, 0)];
    told.into_iter()
        .chain(more)
        .map(writings::name_of)
        .collect()
}

fn main() {
    let mut run = Run::begin();
    run.part(Run::open_sessions);
    run.part(Run::send_sheets);
    run.part(Run::deliver_to_crafted);
    run.part(Run::size_headers);
    run.part(Run::write);
    run.part(Run::run_to_crafted);
    run.part(Run::send_sheets_by_runs);
    run.desk.hold_against_answers();
    run.print_tables();
    let shortcomings = run.shortcomings();
    run.desk.end(shortcomings)
}
