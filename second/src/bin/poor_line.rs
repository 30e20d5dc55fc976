//! Sends sheets of several hundred blocks to the Load button over a poor line: blocks dropped,
//! repeated, damaged and cut, the program killed at any moment and pressed again until the sheet
//! is complete. The lines and the state must be those of the undisturbed sheet, and after each
//! kill the state must be one that was whole. Status 0: so it was. Status 1: a difference, or too
//! little was tried. Usage: poor_line PROGRAM [SEED] [SHEETS]

use second::block::Record;
use second::button::line::{self, Line};
use second::button::press::{any_kill, Button, Ended, Kill};
use second::button::state::{spoilt, State};
use second::button::{self, Sheet};
use second::comparing::{self, Asked, Mismatch, Note, Wanted};
use second::dice::Dice;
use second::family::USGS;
use second::spots;
use std::fs;
use std::path::Path;
use std::time::{Duration, Instant};

const USAGE: &str = "poor_line PROGRAM [SEED] [SHEETS]";
const USUAL_SHEETS: usize = 105;
const FEWEST_SHEETS: usize = 100;
/// After so many kills the line gets better, or a run would have no end.
const MOST_KILLS: usize = 4;
const SHOWN: [&str; 22] = [
    "killed before any state",
    "killed, nothing new kept",
    "killed, some kept",
    "killed while writing",
    "ended before the kill",
    "dropped",
    "repeated",
    "wild number",
    "damaged",
    "cut in its block",
    "cut in its number",
    "one too many",
    "no room at the first press",
    "no room for a new state",
    "two presses at once",
    "no state of ours",
    "wrong usage",
    "no family said",
    "family 0 said",
    "family 1 said",
    "another family than the state's",
    "a family nobody knows",
];
/// None of them is 0 or 1, though some would be if cut to fewer bits.
const NO_FAMILIES: [&str; 8] = [
    "2",
    "255",
    "256",
    "-1",
    "4294967296",
    "4294967297",
    "one",
    "1x",
];
const KINDS: [u32; 8] = [1, 3, 4, 5, 6, 7, 9, 10];

/// One sheet on its way.
struct Sending<'a> {
    button: Button,
    sheet: &'a Sheet,
    dice: Dice,
    /// What the state holds, if there is one.
    kept: Option<State>,
    /// How long a press takes, by the last one that came to its end.
    usual: Duration,
    shown: Vec<String>,
}

type Checked = Result<(), String>;

fn demand(holds: bool, otherwise: impl FnOnce() -> String) -> Checked {
    holds.then_some(()).ok_or_else(otherwise)
}

impl<'a> Sending<'a> {
    fn taken(&self) -> usize {
        self.kept.as_ref().map_or(0, State::taken)
    }

    fn note(&mut self, what: &str) {
        self.shown.push(what.to_string());
    }

    fn send(&mut self, number: usize) -> Checked {
        self.try_little_room()?;
        for _ in 0..MOST_KILLS {
            if self.taken() < self.sheet.reach {
                self.press_and_kill()?;
            }
        }
        match number % 4 {
            0 => self.try_little_room()?,
            1 => self.try_two_presses()?,
            2 => self.try_spoilt_states(number / 4)?,
            _ => self.try_wrong_usage()?,
        }
        if number % 5 == 4 {
            self.try_other_families()?;
        }
        while self.taken() < self.sheet.reach {
            let taken = self.taken();
            let line = line::poor(&mut self.dice, self.sheet, taken);
            self.press_to_the_end(line)?;
        }
        // the button says it again as often as it is asked
        let line = line::good(self.sheet, self.taken());
        self.press_to_the_end(line)
    }

    fn press_to_the_end(&mut self, line: Line<'a>) -> Checked {
        let began = Instant::now();
        let ended = self.button.press(&line.bytes, &Kill::Never);
        self.usual = began.elapsed();
        self.demand_end(line, &ended)
    }

    /// Status, lines and state of a press that was let be.
    fn demand_end(&mut self, line: Line<'a>, ended: &Ended) -> Checked {
        demand(ended.status == Some(0) && ended.errors.is_empty(), || {
            told("status 0", ended)
        })?;
        demand(ended.output == line.output(), || {
            format!(
                "{}\nexpected:\n{}",
                told("other lines", ended),
                line.output()
            )
        })?;
        demand(!self.button.fresh().exists(), || {
            "STATE.new is left".to_string()
        })?;
        self.look_at_state(line.taken, line.taken)?;
        self.shown.extend(line.shown);
        Ok(())
    }

    fn press_and_kill(&mut self) -> Checked {
        let before = self.taken();
        let line = line::poor(&mut self.dice, self.sheet, before);
        let kill = any_kill(&mut self.dice, &line.bytes, self.usual);
        let ended = self.button.press(&line.bytes, &kill);
        if ended.status.is_some() {
            self.note("ended before the kill");
            return self.demand_end(line, &ended);
        }
        demand(line.output().starts_with(&ended.output), || {
            format!(
                "{}\nexpected:\n{}",
                told("other lines", &ended),
                line.output()
            )
        })?;
        if self.button.fresh().exists() {
            self.note("killed while writing");
        }
        self.look_at_state(before, line.taken)?;
        let note = match (&self.kept, self.taken() > before) {
            (None, _) => "killed before any state",
            (_, false) => "killed, nothing new kept",
            (_, true) => "killed, some kept",
        };
        self.note(note);
        Ok(())
    }

    /// The state file: none, if there was none; else what the first blocks of the sheet mean, as
    /// many of them as the press may have taken.
    fn look_at_state(&mut self, least: usize, most: usize) -> Checked {
        let Some(bytes) = self.button.state_bytes() else {
            return demand(self.kept.is_none() && least == 0, || "no state".to_string());
        };
        let state = State::read(&bytes).ok_or("the state is not whole")?;
        let taken = state.taken();
        demand((least..=most).contains(&taken), || {
            format!("the state has {taken} blocks, not from {least} to {most}")
        })?;
        let meant = State::of(self.sheet.family, &self.sheet.text[..taken]);
        demand(state == meant, || {
            format!("the state is not what the first {taken} blocks mean")
        })?;
        demand(state.sum_is_that_of_the_cells(), || {
            "the state's sum is not that of its cells".to_string()
        })?;
        self.kept = Some(state);
        Ok(())
    }

    /// A press that must end with this status and leave the state's bytes alone.
    fn demand_untouched(&self, what: &str, status: i32, press: impl FnOnce() -> Ended) -> Checked {
        let before = self.button.state_bytes();
        let ended = press();
        let good = ended.status == Some(status) && ended.errors.ends_with('\n');
        demand(good, || told(what, &ended))?;
        demand(status != 2 || ended.output.is_empty(), || {
            told(what, &ended)
        })?;
        demand(self.button.state_bytes() == before, || {
            format!("{what}: the state has changed")
        })
    }

    fn try_little_room(&mut self) -> Checked {
        let line = line::good(self.sheet, self.taken());
        // too little for any state that this press could write
        let size = self
            .kept
            .as_ref()
            .map_or(0, |state| state.bytes().len() as u64);
        let blocks = self.dice.between(0, size as i64 / 513) as u64;
        if line.bytes.is_empty() {
            return Ok(());
        }
        let what = match self.kept {
            None => "no room at the first press",
            Some(_) => "no room for a new state",
        };
        self.note(what);
        self.demand_untouched(what, 1, || {
            self.button.press_with_little_room(&line.bytes, blocks)
        })
    }

    fn try_two_presses(&mut self) -> Checked {
        let mut line = Line::open(self.sheet, self.taken());
        line.send(u32::MAX, &self.sheet.text[0]);
        let first = line.bytes.clone();
        let (second, ended) = self.button.press_during(&first, || {
            let press = || self.button.press(&first, &Kill::Never);
            self.demand_untouched("two presses at once", 2, press)
        });
        second?;
        self.note("two presses at once");
        self.demand_end(line, &ended)
    }

    /// Each way to spoil a state in its turn.
    fn try_spoilt_states(&mut self, turn: usize) -> Checked {
        let Some(state) = self.kept.clone().filter(|state| state.taken() > 0) else {
            return Ok(());
        };
        let files = spoilt(&state);
        for place in 0..3 {
            let (what, bytes) = &files[(turn * 3 + place) % files.len()];
            fs::write(self.button.state(), bytes).map_err(|fault| fault.to_string())?;
            let press = || self.button.press(b"", &Kill::Never);
            self.demand_untouched(what, 2, press)?;
        }
        self.note("no state of ours");
        fs::write(self.button.state(), state.bytes()).map_err(|fault| fault.to_string())
    }

    fn try_wrong_usage(&mut self) -> Checked {
        let state = self.button.state();
        let (state, empty) = (state.as_path(), Path::new(""));
        let one = Path::new("1");
        for arguments in [&[][..], &[state, state], &[empty], &[state, one, one]] {
            let press = || self.button.press_wrongly(arguments);
            self.demand_untouched("wrong usage", 2, press)?;
        }
        self.note("wrong usage");
        Ok(())
    }

    /// Another family than the state's own, and ones that nobody knows, state or no state.
    fn try_other_families(&mut self) -> Checked {
        let line = line::good(self.sheet, self.taken());
        let line = &line.bytes[..line.bytes.len().min(3_000)];
        for family in NO_FAMILIES {
            let press = || self.button.press_with_family(family, line);
            self.demand_untouched("a family nobody knows", 2, press)?;
        }
        self.note("a family nobody knows");
        if self.kept.is_some() {
            let other = (1 - self.sheet.family).to_string();
            let press = || self.button.press_with_family(&other, line);
            self.demand_untouched("another family than the state's", 2, press)?;
            self.note("another family than the state's");
        }
        Ok(())
    }
}

fn told(what: &str, ended: &Ended) -> String {
    let Ended {
        status,
        output,
        errors,
    } = ended;
    format!("{what}: status {status:?}\nstandard error:\n{errors}standard output:\n{output}")
}

fn send(asked: &Asked, number: usize) -> Result<Note, Mismatch> {
    let (family, sheet) = button::sheet(asked.seed, number);
    let (said, what) = match (sheet.family, number % 2) {
        (USGS, 0) => (None, "no family said"),
        (USGS, _) => (Some("0".to_string()), "family 0 said"),
        (other, _) => (Some(other.to_string()), "family 1 said"),
    };
    let mut sending = Sending {
        button: Button::new(&asked.program, &number.to_string(), said),
        sheet: &sheet,
        dice: Dice::numbered(asked.seed ^ 1, number),
        kept: None,
        usual: Duration::from_millis(200),
        shown: vec![what.to_string()],
    };
    let sent = sending.send(number);
    sent.map_err(|fault| {
        let words = format!(
            "sheet {number}, {family}, {} taken: {fault}",
            sending.taken()
        );
        Mismatch::of(words, sheet.text.concat())
    })?;
    Ok(Note {
        family,
        outcome: match sheet.whole() {
            true => "complete".to_string(),
            false => "broken off".to_string(),
        },
        shown: sending.shown,
    })
}

fn wanted() -> Wanted {
    let kinds = KINDS.map(|kind| format!("refused {kind}"));
    Wanted {
        fewest: FEWEST_SHEETS,
        families: button::families(),
        outcomes: ["complete", "broken off"].map(String::from).to_vec(),
        shown: SHOWN
            .iter()
            .map(|name| name.to_string())
            .chain(kinds)
            .chain(spots::wanted_past_the_first(USGS, &Record::ALL))
            .collect(),
    }
}

fn main() {
    let notes = comparing::notes_of(USAGE, USUAL_SHEETS, send);
    comparing::finish(&comparing::tally(&notes, &wanted()));
}
