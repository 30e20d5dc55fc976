//! What blocks joined to one text mean. The text is read from its start every time; no
//! number is carried from one delivery to the next.

use crate::block::{Fault, Record, HUNDREDTH};
use crate::family::USGS;
use crate::kind::WRONG_EXTREME;
use crate::profile::{Profile, Turn};
use crate::record_a::{self, Header};
use crate::record_c;

/// Marks a cell that no filled post stands for.
pub const VOID_CELL: i32 = -2_147_483_648;

pub type Block = Vec<u8>;

/// A fault and the block it is in.
#[derive(Clone, Copy, Debug, PartialEq)]
pub struct Refusal {
    pub kind: u32,
    pub block: u32,
    pub byte: u32,
}

impl Refusal {
    /// As `replay` and the lister write it.
    pub fn line(&self) -> String {
        format!("refused {} {} {}\n", self.kind, self.block, self.byte)
    }
}

#[derive(Clone, Debug)]
pub struct Sheet {
    pub header: Header,
    /// All that have begun; only the last one can still be open.
    pub profiles: Vec<Profile>,
    pub statistics_read: bool,
    /// How many blocks of the text it is made of; the others come after its end.
    pub blocks: usize,
}

/// Counts, extremes and sum of the posts read, an open profile's included (READINGS 20, 27;
/// READINGS-02, 1.1).
#[derive(Clone, Copy, Debug, Default, PartialEq)]
pub struct Figures {
    pub closed: usize,
    pub posts: usize,
    pub filled: usize,
    /// In hundredths; zero while nothing is filled.
    pub least: i64,
    pub greatest: i64,
    /// Of the filled posts' elevations, in hundredths, exact.
    pub sum: i64,
}

/// Reads a USGS text of one block or more, up to its end or that of the sheet.
pub fn read(text: &[Block]) -> Result<Sheet, Refusal> {
    read_of(USGS, text)
}

/// The same for a family.
pub fn read_of(family: i64, text: &[Block]) -> Result<Sheet, Refusal> {
    let header = record_a::check_of(family, &text[0]).map_err(|fault| in_block(0, fault))?;
    let mut sheet = Sheet {
        header,
        profiles: Vec::new(),
        statistics_read: false,
        blocks: 1,
    };
    while sheet.blocks < text.len() && !sheet.profiles_are_done() {
        sheet.blocks = sheet.read_profile(text, sheet.blocks)?;
    }
    if sheet.blocks < text.len() && sheet.header.accuracy == 1 {
        let number = sheet.blocks;
        record_c::check(&text[number]).map_err(|fault| in_block(number, fault))?;
        sheet.statistics_read = true;
        sheet.blocks += 1;
    }
    Ok(sheet)
}

pub fn in_block(block: usize, (kind, byte): Fault) -> Refusal {
    Refusal {
        kind,
        block: block as u32,
        byte,
    }
}

impl Sheet {
    /// Reads the profile whose first block is `first`; answers the block after it.
    fn read_profile(&mut self, text: &[Block], first: usize) -> Result<usize, Refusal> {
        let turn = Turn {
            number: self.profiles.len() as i64 + 1,
            next_column: self.profiles.last().map(|neighbour| neighbour.column + 1),
        };
        let mut profile = Profile::start(&text[first], &self.header, &turn)
            .map_err(|fault| in_block(first, fault))?;
        let mut next = first + 1;
        while next < text.len() && !profile.closed() {
            let further = profile.read_further_block(&text[next]);
            further.map_err(|fault| in_block(next, fault))?;
            next += 1;
        }
        self.profiles.push(profile);
        self.check_closing(first)?;
        Ok(next)
    }

    /// The closing rules in their order (READINGS 21); they name blocks taken before (22).
    fn check_closing(&self, first: usize) -> Result<(), Refusal> {
        let profile = self.profiles.last().expect("one was just read");
        if !profile.closed() {
            return Ok(());
        }
        let (least, greatest) = self.extremes_of(std::slice::from_ref(profile));
        demand_extreme(profile.stated_least, least, first, 97)?;
        demand_extreme(profile.stated_greatest, greatest, first, 121)?;
        if !self.profiles_are_done() {
            return Ok(());
        }
        let (least, greatest) = self.extremes_of(&self.profiles);
        demand_extreme(self.header.stated_least, least, 0, 739)?;
        demand_extreme(self.header.stated_greatest, greatest, 0, 763)
    }

    fn profiles_are_done(&self) -> bool {
        self.closed() as i64 == self.header.n
    }

    fn closed(&self) -> usize {
        let closed = self.profiles.iter().filter(|profile| profile.closed());
        closed.count()
    }

    pub fn complete(&self) -> bool {
        self.profiles_are_done() && (self.header.accuracy == 0 || self.statistics_read)
    }

    /// The record that the block after this text belongs to; None after the last one.
    pub fn awaits(&self) -> Option<Record> {
        let open = self.profiles.last().is_some_and(|last| !last.closed());
        match (open, self.profiles_are_done(), self.complete()) {
            (_, _, true) => None,
            (true, _, _) => Some(Record::ProfileRest),
            (_, true, _) => Some(Record::Statistics),
            _ => Some(Record::ProfileStart),
        }
    }

    pub fn filled_elevations(&self, profiles: &[Profile]) -> Vec<i64> {
        let z_spacing = self.header.z_spacing;
        let of_profile = |profile: &Profile| profile.elevations(z_spacing);
        profiles.iter().flat_map(of_profile).flatten().collect()
    }

    /// Least and greatest of what these profiles filled, zeros if nothing.
    fn extremes_of(&self, profiles: &[Profile]) -> (i64, i64) {
        let filled = self.filled_elevations(profiles);
        let least = filled.iter().min().copied().unwrap_or(0);
        let greatest = filled.iter().max().copied().unwrap_or(0);
        (least, greatest)
    }

    pub fn figures(&self) -> Figures {
        let (least, greatest) = self.extremes_of(&self.profiles);
        let filled = self.filled_elevations(&self.profiles);
        Figures {
            closed: self.closed(),
            posts: self.profiles.iter().map(|one| one.posts.len()).sum(),
            filled: filled.len(),
            least,
            greatest,
            sum: filled.iter().sum(),
        }
    }

    /// Every cell of the sheet, column after column from the west, each from the south.
    pub fn cells(&self) -> Vec<i32> {
        let rows = self.header.rows().count();
        let mut cells = vec![VOID_CELL; self.header.cells()];
        for profile in &self.profiles {
            let south = (profile.column * rows + profile.row) as usize;
            let elevations = profile.elevations(self.header.z_spacing);
            for (step, elevation) in elevations.into_iter().enumerate() {
                if let Some(hundredths) = elevation {
                    cells[south + step] = hundredths as i32;
                }
            }
        }
        cells
    }
}

/// The sum over those of these cells that are filled.
pub fn sum_of_cells(cells: &[i32]) -> i64 {
    let filled = cells.iter().filter(|&&cell| cell != VOID_CELL);
    filled.map(|&cell| i64::from(cell)).sum()
}

/// Stated billionths against worked-out hundredths, exactly.
pub fn demand_extreme(stated: i64, found: i64, block: usize, byte: u32) -> Result<(), Refusal> {
    if stated == found * HUNDREDTH {
        Ok(())
    } else {
        Err(in_block(block, (WRONG_EXTREME, byte)))
    }
}
