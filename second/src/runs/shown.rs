//! What runs show about a desk. A comparison in which something of this was never seen has
//! compared too little.

use super::{is_refused, Ended};
use crate::block::BLOCK_LENGTH;
use crate::comparing::Counts;
use crate::crafted::runs::MOST_BLOCKS;
use crate::desk::{Delivery, Left, Placed};
use crate::family::is_known;
use crate::kept::{name_of, place, sound, Kept, DONE, HELD, NUMBERS};
use crate::kind::{GRID_TOO_SHORT, SHEET_COMPLETE, TOO_EARLY, UNSOUND, WRONG_EXTREME};

/// One run, and what came of it.
pub struct Look<'a> {
    before: &'a [i64],
    /// What the numbers before it say, if they are sound.
    session: Option<Kept>,
    number: u32,
    bytes: &'a [u8],
    cells: usize,
    room: usize,
    ended: Ended,
    /// Blocks taken by this run; those before them were held.
    taken: u32,
}

impl<'a> Look<'a> {
    /// None of a single delivery.
    pub fn at(delivery: &'a Delivery, left: &Left) -> Option<Look<'a>> {
        let ended = Ended {
            told: left.told,
            count: left.count?,
        };
        Some(Look {
            before: &delivery.numbers,
            session: sound(&delivery.numbers),
            number: delivery.number,
            bytes: &delivery.block,
            cells: delivery.grid.len(),
            room: delivery.room,
            ended,
            taken: taken_between(&delivery.numbers, &left.numbers),
        })
    }

    pub fn at_placed(placed: &'a Placed, ended: Ended, after: &[i64]) -> Look<'a> {
        Look {
            before: &placed.numbers,
            session: sound(&placed.numbers),
            number: placed.number,
            bytes: &placed.block,
            cells: placed.lent,
            room: placed.room,
            ended,
            taken: taken_between(&placed.numbers, after),
        }
    }

    fn result(&self) -> u32 {
        self.ended.told.result
    }

    fn blocks(&self) -> usize {
        self.bytes.len() / BLOCK_LENGTH
    }

    fn empty(&self) -> bool {
        self.bytes.is_empty()
    }

    fn odd(&self) -> bool {
        self.blocks() * BLOCK_LENGTH != self.bytes.len()
    }

    fn refused(&self) -> bool {
        is_refused(self.ended.told)
    }

    fn held(&self) -> u32 {
        self.ended.count - self.taken
    }

    /// Enough numbers and a family that we know, but unsound.
    fn unsound(&self) -> bool {
        let family = self.before.get(place::FAMILY);
        self.session.is_none() && family.is_some_and(|&family| is_known(family))
    }

    fn unknown_family(&self) -> bool {
        let family = self.before.get(place::FAMILY);
        family.is_some_and(|&family| !is_known(family))
    }

    fn is_sound_and(&self, holds: impl Fn(&Kept) -> bool) -> bool {
        self.session.as_ref().is_some_and(holds)
    }

    fn short_of_cells(&self) -> bool {
        self.is_sound_and(|kept| kept.taken > 0 && self.cells < kept.header.cells())
    }

    /// Of a run that has any blocks.
    fn past_32_bits(&self) -> bool {
        let last = u64::from(self.number) + self.blocks() as u64;
        self.blocks() > 0 && last > 1 << 32
    }

    /// The last block's number, once it is cut to 32 bits, is that of a block taken.
    fn comes_round(&self) -> bool {
        let last = self.number.wrapping_add(self.blocks() as u32 - 1);
        self.is_sound_and(|kept| i64::from(last) < kept.taken)
    }

    /// Kind 11 by its byte, with the number of the block named.
    fn misstated(&self, bytes: [u32; 2]) -> Option<i64> {
        let told = self.ended.told;
        let named = told.result == WRONG_EXTREME && bytes.contains(&told.byte);
        named.then_some(told.block.into())
    }

    /// Kind 11 of a profile, by where its first block came from.
    fn profile_misstated(&self, from: impl Fn(i64, i64, i64) -> bool) -> bool {
        let refused = i64::from(self.number) + i64::from(self.ended.count);
        let first = self.misstated([97, 121]);
        first.is_some_and(|first| from(first, self.before[place::TAKEN], refused))
    }

    fn sheet_misstated(&self, from_before: bool) -> bool {
        let began_before = self.before.get(place::TAKEN) > Some(&0);
        self.misstated([739, 763]) == Some(0) && began_before == from_before
    }

    /// Whether a block was held that no record could be read from.
    fn held_strangers(&self) -> bool {
        let mut blocks = self.bytes.chunks(BLOCK_LENGTH).take(self.held() as usize);
        blocks.any(|block| !block[0].is_ascii())
    }
}

/// Too few numbers are of no session.
fn taken_between(before: &[i64], after: &[i64]) -> u32 {
    let taken = |numbers: &[i64]| numbers.get(place::TAKEN).copied().unwrap_or(0);
    (taken(after) - taken(before)) as u32
}

type Sight = (&'static str, fn(&Look) -> bool);

/// The slips of READINGS-02, request 3, and what they are told apart by.
const SIGHTS: [Sight; 34] = [
    ("all held", |l| {
        l.result() == HELD && !l.empty() && l.taken == 0
    }),
    ("all taken", |l| l.result() == DONE && l.held() == 0),
    ("held, then taken", |l| l.result() == DONE && l.held() > 0),
    ("held, then refused", |l| {
        l.refused() && l.held() > 0 && l.taken == 0
    }),
    ("taken, then refused", |l| {
        l.refused() && l.held() == 0 && l.taken > 0
    }),
    ("held, then taken, then refused", |l| {
        l.refused() && l.held() > 0 && l.taken > 0
    }),
    ("more behind the block refused", |l| {
        l.refused() && !l.odd() && l.ended.count as usize + 1 < l.blocks()
    }),
    ("held, what nobody could read", |l| l.held_strangers()),
    ("empty, session sound", |l| l.empty() && l.session.is_some()),
    ("empty, session unsound", |l| l.empty() && l.unsound()),
    ("empty, family unknown", |l| l.empty() && l.unknown_family()),
    ("empty, numbers too few", |l| {
        l.empty() && l.before.len() < NUMBERS
    }),
    ("empty, grid too short", |l| l.empty() && l.short_of_cells()),
    ("empty, sheet complete", |l| {
        l.empty() && l.is_sound_and(Kept::complete)
    }),
    ("empty, early", |l| {
        l.empty() && l.is_sound_and(|kept| i64::from(l.number) > kept.taken)
    }),
    ("empty, 2^32 - 1", |l| l.empty() && l.number == u32::MAX),
    ("odd length, session unsound", |l| l.odd() && l.unsound()),
    ("odd length, family unknown", |l| {
        l.odd() && l.unknown_family()
    }),
    ("odd length, less than a block", |l| {
        l.odd() && l.blocks() == 0
    }),
    ("odd length, late", |l| {
        l.odd() && l.is_sound_and(|kept| i64::from(l.number) < kept.taken)
    }),
    ("odd length, the block due before it", |l| {
        l.odd() && l.blocks() > 0 && l.is_sound_and(|kept| i64::from(l.number) == kept.taken)
    }),
    ("odd length, grid too short", |l| {
        l.odd() && l.short_of_cells()
    }),
    ("grid too short, all held", |l| {
        l.result() == HELD && !l.empty() && l.short_of_cells()
    }),
    ("grid too short for block 0", |l| {
        l.result() == GRID_TOO_SHORT && l.ended.told.block == 0
    }),
    ("a block more than the sheet has", |l| {
        l.result() == SHEET_COMPLETE && l.taken > 0
    }),
    ("every block that a sheet can have, held", |l| {
        l.result() == SHEET_COMPLETE && l.held() as usize == MOST_BLOCKS
    }),
    ("past 32 bits, unsound", |l| {
        l.past_32_bits() && l.result() == UNSOUND
    }),
    ("past 32 bits, early", |l| {
        l.past_32_bits() && l.result() == TOO_EARLY
    }),
    ("past 32 bits, round to a late block", |l| {
        l.past_32_bits() && l.result() == TOO_EARLY && l.comes_round()
    }),
    ("kind 11 of the block refused", |l| {
        l.profile_misstated(|first, _, refused| first == refused)
    }),
    ("kind 11 of a block of this run", |l| {
        l.profile_misstated(|first, before, refused| (before..refused).contains(&first))
    }),
    ("kind 11 of a block from before", |l| {
        l.profile_misstated(|first, before, _| first < before)
    }),
    ("kind 11 of block 0, of this run", |l| {
        l.sheet_misstated(false)
    }),
    ("kind 11 of block 0, from before", |l| {
        l.sheet_misstated(true)
    }),
];

/// Kinds that end a run, by what was before the refused block: 1 to 3 and 15 are always said of
/// the first, and 12 never of one behind a block taken.
const BEHIND_HELD: std::ops::RangeInclusive<u32> = 4..=12;
const BEHIND_TAKEN: std::ops::RangeInclusive<u32> = 4..=11;

fn word(result: u32) -> &'static str {
    match result {
        DONE => "taken",
        HELD => "held",
        _ => "refused",
    }
}

/// All that a run shows; the last are about the slices lent.
pub fn shown(look: &Look) -> Vec<String> {
    let word = word(look.result());
    let seen = SIGHTS.iter().filter(|(_, seen)| seen(look));
    let mut names: Vec<String> = seen.map(|&(name, _)| name.to_string()).collect();
    if look.refused() && look.taken > 0 {
        names.push(behind("taken", look.result()));
    } else if look.refused() && look.held() > 0 {
        names.push(behind("held", look.result()));
    }
    names.push(format!("answer of {}, {word}", look.room));
    if look.before.len() > NUMBERS {
        names.push(format!("numbers past the session, {word}"));
    }
    names
}

fn behind(word: &str, kind: u32) -> String {
    format!("behind {word}, {}", name_of(kind))
}

pub fn sights() -> Vec<String> {
    let mut names: Vec<String> = SIGHTS.map(|(name, _)| name.to_string()).to_vec();
    names.extend(kinds_behind());
    for word in ["taken", "held", "refused"] {
        names.extend((0..=4).map(|room| format!("answer of {room}, {word}")));
        names.push(format!("numbers past the session, {word}"));
    }
    names
}

fn kinds_behind() -> Vec<String> {
    let held = BEHIND_HELD.map(|kind| behind("held", kind));
    held.chain(BEHIND_TAKEN.map(|kind| behind("taken", kind)))
        .collect()
}

/// Runs of one sort that were compared, by their answers.
#[derive(Default)]
pub struct Seen {
    pub answers: Counts,
    /// All that they brought, also what was not looked at.
    blocks: usize,
    refused_inside: usize,
    held_in_front: usize,
}

impl Seen {
    pub fn see(&mut self, look: &Look) {
        self.answers.see(name_of(look.result()));
        self.blocks += look.blocks();
        self.refused_inside += usize::from(look.refused() && look.ended.count > 0);
        self.held_in_front += usize::from(look.held() > 0);
    }

    pub fn print(&self, title: &str, answers: &[impl AsRef<str>]) {
        println!("{title} {}", self.answers.all());
        for (what, times) in [
            ("blocks in them", self.blocks),
            ("refused behind other blocks", self.refused_inside),
            ("held blocks in front", self.held_in_front),
        ] {
            println!("  {what:<40} {times:>7}");
        }
        self.answers.print("  answers", answers);
    }
}
