//! A session as the desk keeps it: 39 numbers, handed in and back with every call (DESIGN,
//! "The desk in C"). Which numbers are sound, and what one delivery makes of them, stand
//! here a second time; load.rs knows only blocks, so the two can be held together.

pub mod clauses;

use crate::block::{Record, BLOCK_LENGTH, HUNDREDTH};
use crate::family::USGS;
use crate::kind::{GRID_TOO_SHORT, SHEET_COMPLETE, TOO_EARLY, UNSOUND, WRONG_LENGTH};
use crate::lister;
use crate::meaning::{demand_extreme, in_block, Figures, Refusal, Sheet, VOID_CELL};
use crate::profile::{
    elevation, further_posts, Profile, Turn, POSTS_OF_FIRST_BLOCK, POSTS_OF_FURTHER_BLOCK,
};
use crate::record_a::{self, Header};
use crate::record_c;

/// How many numbers a session has.
pub const NUMBERS: usize = 39;
pub const NAMES: [&str; NUMBERS] = [
    "level",
    "system",
    "zone",
    "ground",
    "vertical",
    "SW x",
    "SW y",
    "NW x",
    "NW y",
    "NE x",
    "NE y",
    "SE x",
    "SE y",
    "least",
    "greatest",
    "accuracy",
    "xstep",
    "ystep",
    "zstep",
    "profiles",
    "taken",
    "closed",
    "posts",
    "filled",
    "low",
    "high",
    "column",
    "finished",
    "open posts",
    "open row",
    "open datum",
    "open least",
    "open greatest",
    "open read",
    "open filled",
    "open low",
    "open high",
    "sum",
    "family",
];

/// Where some of them stand.
pub mod place {
    pub const TAKEN: usize = 20;
    pub const FILLED: usize = 23;
    pub const FINISHED: usize = 27;
    pub const OPEN_POSTS: usize = 28;
    pub const SUM: usize = 37;
    pub const FAMILY: usize = 38;
}

/// The result of a delivery that is held; taken and done are 0.
pub const HELD: u32 = 255;
pub const DONE: u32 = 0;

pub fn name_of(result: u32) -> String {
    match result {
        DONE => "taken".to_string(),
        HELD => "held".to_string(),
        kind => format!("refused {kind}"),
    }
}

/// Filled cells and their running extremes, in hundredths; the extremes mean nothing
/// while nothing is filled (READINGS 26).
#[derive(Clone, Copy, Debug, Default, PartialEq)]
pub struct Running {
    pub filled: i64,
    pub low: i64,
    pub high: i64,
}

/// The open profile. With no posts none is open, and the other numbers mean nothing.
#[derive(Clone, Copy, Debug, Default, PartialEq)]
pub struct Open {
    pub posts: i64,
    pub row: i64,
    /// In hundredths, as no other real is.
    pub datum: i64,
    pub least: i64,
    pub greatest: i64,
    pub read: i64,
    pub running: Running,
}

#[derive(Clone, Debug, PartialEq)]
pub struct Kept {
    pub header: Header,
    pub taken: i64,
    pub closed: i64,
    pub posts: i64,
    pub running: Running,
    /// Where profile 1 stands, once it has begun.
    pub column: i64,
    /// 1 once a record C is taken.
    pub finished: i64,
    pub open: Open,
    /// Of all filled cells, in hundredths, exact. A profile keeps none of its own.
    pub sum: i64,
}

/// What a delivery gives back beside session and grid.
#[derive(Clone, Copy, Debug, PartialEq)]
pub struct Told {
    pub result: u32,
    pub block: u32,
    pub byte: u32,
}

impl Kept {
    /// The session that the first 39 numbers say.
    pub fn of(numbers: &[i64]) -> Kept {
        let running = |first: usize| Running {
            filled: numbers[first],
            low: numbers[first + 1],
            high: numbers[first + 2],
        };
        Kept {
            header: header_of(numbers[place::FAMILY], &numbers[..20]),
            taken: numbers[20],
            closed: numbers[21],
            posts: numbers[22],
            running: running(23),
            column: numbers[26],
            finished: numbers[27],
            open: Open {
                posts: numbers[28],
                row: numbers[29],
                datum: numbers[30],
                least: numbers[31],
                greatest: numbers[32],
                read: numbers[33],
                running: running(34),
            },
            sum: numbers[37],
        }
    }

    pub fn fresh() -> Kept {
        Kept::opened(USGS)
    }

    /// "The caller names the family" (02, request 2): behind zeros, and nothing else stands there.
    pub fn opened(family: i64) -> Kept {
        let mut numbers = [0; NUMBERS];
        numbers[place::FAMILY] = family;
        Kept::of(&numbers)
    }

    /// What the blocks of this text leave; read off the text, not stepped to.
    pub fn after(sheet: &Sheet) -> Kept {
        let figures = sheet.figures();
        let first = sheet.profiles.first();
        let last = sheet.profiles.last().filter(|last| !last.closed());
        Kept {
            header: sheet.header.clone(),
            taken: sheet.blocks as i64,
            closed: figures.closed as i64,
            posts: figures.posts as i64,
            running: Running {
                filled: figures.filled as i64,
                low: figures.least,
                high: figures.greatest,
            },
            column: first.map_or(0, |first| first.column),
            finished: i64::from(sheet.statistics_read),
            open: last.map_or(Open::default(), |last| opened(sheet, last)),
            sum: figures.sum,
        }
    }

    pub fn numbers(&self) -> [i64; NUMBERS] {
        let (header, open) = (&self.header, &self.open);
        let mut numbers = [0; NUMBERS];
        numbers[..20].copy_from_slice(&numbers_of_header(header));
        numbers[20..].copy_from_slice(&[
            self.taken,
            self.closed,
            self.posts,
            self.running.filled,
            self.running.low,
            self.running.high,
            self.column,
            self.finished,
            open.posts,
            open.row,
            open.datum,
            open.least,
            open.greatest,
            open.read,
            open.running.filled,
            open.running.low,
            open.running.high,
            self.sum,
            header.family,
        ]);
        numbers
    }

    pub fn has_open(&self) -> bool {
        self.open.posts != 0
    }

    pub fn complete(&self) -> bool {
        self.taken > 0
            && self.closed == self.header.n
            && (self.header.accuracy == 0 || self.finished == 1)
    }

    /// The record that the next block belongs to; None after the last one.
    pub fn awaits(&self) -> Option<Record> {
        if self.taken == 0 {
            Some(Record::Header)
        } else if self.complete() {
            None
        } else if self.has_open() {
            Some(Record::ProfileRest)
        } else if self.closed == self.header.n {
            Some(Record::Statistics)
        } else {
            Some(Record::ProfileStart)
        }
    }

    /// The lister's four lines, if the sheet is complete.
    pub fn report(&self) -> Option<String> {
        let (least, greatest) = self.running.extremes();
        let figures = Figures {
            closed: self.closed as usize,
            posts: self.posts as usize,
            filled: self.running.filled as usize,
            least,
            greatest,
            sum: self.sum,
        };
        self.complete()
            .then(|| lister::lines(&self.header, &figures, self.taken as usize))
    }
}

fn header_of(family: i64, numbers: &[i64]) -> Header {
    Header {
        family,
        level: numbers[0],
        system: numbers[1],
        zone: numbers[2],
        ground_unit: numbers[3],
        vertical_unit: numbers[4],
        corners: numbers[5..13].try_into().expect("eight corners"),
        stated_least: numbers[13],
        stated_greatest: numbers[14],
        accuracy: numbers[15],
        x_spacing: numbers[16],
        y_spacing: numbers[17],
        z_spacing: numbers[18],
        n: numbers[19],
    }
}

fn numbers_of_header(header: &Header) -> [i64; 20] {
    let [a, b, c, d, e, f, g, h] = header.corners;
    [
        header.level,
        header.system,
        header.zone,
        header.ground_unit,
        header.vertical_unit,
        a,
        b,
        c,
        d,
        e,
        f,
        g,
        h,
        header.stated_least,
        header.stated_greatest,
        header.accuracy,
        header.x_spacing,
        header.y_spacing,
        header.z_spacing,
        header.n,
    ]
}

fn opened(sheet: &Sheet, profile: &Profile) -> Open {
    let mut running = Running::default();
    running.add(&sheet.filled_elevations(std::slice::from_ref(profile)));
    Open {
        posts: profile.length as i64,
        row: profile.row,
        datum: profile.datum / HUNDREDTH,
        least: profile.stated_least,
        greatest: profile.stated_greatest,
        read: profile.posts.len() as i64,
        running,
    }
}

impl Running {
    /// Least and greatest of what is filled, zeros if nothing is.
    pub fn extremes(&self) -> (i64, i64) {
        match self.filled {
            0 => (0, 0),
            _ => (self.low, self.high),
        }
    }

    /// More filled cells; none at all leave the extremes as they are.
    pub fn add(&mut self, elevations: &[i64]) {
        for &elevation in elevations {
            let (low, high) = match self.filled {
                0 => (elevation, elevation),
                _ => (self.low.min(elevation), self.high.max(elevation)),
            };
            *self = Running {
                filled: self.filled + 1,
                low,
                high,
            };
        }
    }
}

/// The session that lent numbers say, if it is sound. Numbers past the 39th are not
/// looked at.
pub fn sound(numbers: &[i64]) -> Option<Kept> {
    clauses::broken(numbers)
        .is_empty()
        .then(|| Kept::of(numbers))
}

/// One delivery: `numbers` and `grid` are as they were unless the block is taken.
pub fn deliver(numbers: &mut [i64], number: u32, bytes: &[u8], grid: &mut [i32]) -> Told {
    let plain = |result: u32| Told {
        result,
        block: number,
        byte: 0,
    };
    if bytes.len() != BLOCK_LENGTH {
        return plain(WRONG_LENGTH);
    }
    let Some(mut kept) = sound(numbers) else {
        return plain(UNSOUND);
    };
    let done = |result: u32| Told {
        result,
        block: 0,
        byte: 0,
    };
    if i64::from(number) < kept.taken {
        return done(HELD);
    }
    if i64::from(number) > kept.taken {
        return plain(TOO_EARLY);
    }
    let Some(awaited) = kept.awaits() else {
        return plain(SHEET_COMPLETE);
    };
    if number > 0 && grid.len() < kept.header.cells() {
        return plain(GRID_TOO_SHORT);
    }
    match kept.take(awaited, bytes, grid) {
        Ok(()) => {
            numbers[..NUMBERS].copy_from_slice(&kept.numbers());
            done(DONE)
        }
        Err(refusal) => Told {
            result: refusal.kind,
            block: refusal.block,
            byte: refusal.byte,
        },
    }
}

impl Kept {
    /// The grid is touched only once nothing can be refused any more.
    fn take(&mut self, awaited: Record, block: &[u8], grid: &mut [i32]) -> Result<(), Refusal> {
        let number = self.taken as usize;
        let here = |fault| in_block(number, fault);
        match awaited {
            Record::Header => {
                let header = record_a::check_of(self.header.family, block).map_err(here)?;
                return self.begin(header, grid);
            }
            Record::Statistics => {
                record_c::check(block).map_err(here)?;
                self.finished = 1;
            }
            Record::ProfileStart => {
                let turn = self.turn();
                let profile = Profile::start(block, &self.header, &turn).map_err(here)?;
                self.start(&profile);
                self.read_on(&profile.posts, grid)?;
            }
            Record::ProfileRest => {
                let left = (self.open.posts - self.open.read) as usize;
                let posts = further_posts(block, left).map_err(here)?;
                self.read_on(&posts, grid)?;
            }
        }
        self.taken += 1;
        Ok(())
    }

    fn begin(&mut self, header: Header, grid: &mut [i32]) -> Result<(), Refusal> {
        let cells = header.cells();
        if grid.len() < cells {
            return Err(in_block(0, (GRID_TOO_SHORT, 0)));
        }
        grid[..cells].fill(VOID_CELL);
        *self = Kept {
            header,
            taken: 1,
            ..Kept::fresh()
        };
        Ok(())
    }

    fn turn(&self) -> Turn {
        let begun = self.closed > 0;
        Turn {
            number: self.closed + 1,
            next_column: begun.then_some(self.column + self.closed),
        }
    }

    /// A profile of which no post counts yet.
    fn start(&mut self, profile: &Profile) {
        if self.closed == 0 {
            self.column = profile.column;
        }
        self.open = Open {
            posts: profile.length as i64,
            row: profile.row,
            datum: profile.datum / HUNDREDTH,
            least: profile.stated_least,
            greatest: profile.stated_greatest,
            ..Open::default()
        };
    }

    /// The posts of one block, which the open profile's and the sheet's numbers count both
    /// (READINGS 27). The sum grows with them, block by block, and never looks at the grid
    /// (READINGS-02, 1.1, 1.6).
    fn read_on(&mut self, posts: &[i64], grid: &mut [i32]) -> Result<(), Refusal> {
        let datum = self.open.datum * HUNDREDTH;
        let of_post = |&post: &i64| elevation(post, self.header.z_spacing, datum);
        let elevations: Vec<Option<i64>> = posts.iter().map(of_post).collect();
        let filled: Vec<i64> = elevations.iter().flatten().copied().collect();
        let rows = self.header.rows().count();
        let south = (self.column + self.closed) * rows + self.open.row + self.open.read;
        self.posts += posts.len() as i64;
        self.open.read += posts.len() as i64;
        self.running.add(&filled);
        self.open.running.add(&filled);
        self.sum += filled.iter().sum::<i64>();
        if self.open.read == self.open.posts {
            self.close()?;
        }
        lay(&mut grid[south as usize..], &elevations);
        Ok(())
    }

    /// The closing rules; the profile's first block is as many blocks back as it has
    /// before this one (READINGS 21, 22).
    fn close(&mut self) -> Result<(), Refusal> {
        let first = (self.taken + 1 - blocks_of(self.open.read)) as usize;
        let (least, greatest) = self.open.running.extremes();
        demand_extreme(self.open.least, least, first, 97)?;
        demand_extreme(self.open.greatest, greatest, first, 121)?;
        self.closed += 1;
        self.open = Open::default();
        if self.closed < self.header.n {
            return Ok(());
        }
        let (least, greatest) = self.running.extremes();
        demand_extreme(self.header.stated_least, least, 0, 739)?;
        demand_extreme(self.header.stated_greatest, greatest, 0, 763)
    }
}

/// Each post stands in a cell of its own, a void post too: whatever a caller has put
/// there since block 0, its cell is void.
fn lay(cells: &mut [i32], elevations: &[Option<i64>]) {
    for (cell, elevation) in cells.iter_mut().zip(elevations) {
        *cell = elevation.map_or(VOID_CELL, |hundredths| hundredths as i32);
    }
}

/// The blocks in which so many posts of a profile come, one or more.
pub fn blocks_of(posts: i64) -> i64 {
    let further = (posts - POSTS_OF_FIRST_BLOCK as i64).max(0);
    let room = POSTS_OF_FURTHER_BLOCK as i64;
    1 + (further + room - 1) / room
}
