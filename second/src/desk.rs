//! The calls of the desk (DESIGN, "The desk in C"), asked over the pipe of
//! `examples/answers.c`: what is lent, and every number and byte that must come back.

use crate::asking::Question;
use crate::family::USGS;
use crate::kept::{self, Kept, Told, DONE, NAMES, NUMBERS};
use crate::kind::{GRID_TOO_SHORT, WRONG_LENGTH};
use crate::meaning::Block;
use crate::record_a;
use crate::runs;
use crate::write;
use std::process::exit;

/// What the C side puts into every slot before a call.
const UNTOUCHED: u64 = 0xA5A5_A5A5_A5A5_A5A5;
/// A differing slice is shown from its first difference, up to so many elements; what was
/// given is shown from its start, up to more, and kept whole.
const SHOWN: usize = 12;
const MOST_GIVEN: usize = 1_100;
/// The name of a slice that is a session.
const SESSION: &str = "numbers";

/// Elements of one width, as they cross the pipe.
struct Part {
    name: &'static str,
    width: usize,
    bytes: Vec<u8>,
}

/// One call, with what this program says of it.
pub struct Call {
    sort: u8,
    request: Vec<Part>,
    bytes: Vec<u8>,
    answer: Vec<Part>,
}

impl Call {
    fn new(sort: u8) -> Call {
        let unharmed = part("unharmed", &[1_u32.to_le_bytes()]);
        Call {
            sort,
            request: Vec::new(),
            bytes: Vec::new(),
            answer: vec![unharmed],
        }
    }

    fn lends<const WIDTH: usize>(mut self, name: &'static str, all: &[[u8; WIDTH]]) -> Call {
        let count = u32::try_from(all.len()).expect("no slice is that long");
        self.bytes.extend(count.to_le_bytes());
        self.bytes.extend(all.iter().flatten());
        self.request.push(part(name, all));
        self
    }

    fn says(mut self, name: &'static str, number: usize) -> Call {
        let four = u32::try_from(number).expect("no number is that large");
        self.bytes.extend(four.to_le_bytes());
        self.request.push(part(name, &[four.to_le_bytes()]));
        self
    }

    fn gets<const WIDTH: usize>(mut self, name: &'static str, all: &[[u8; WIDTH]]) -> Call {
        self.answer.push(part(name, all));
        self
    }

    fn gets_result(self, result: u32) -> Call {
        self.gets("result", &[result.to_le_bytes()])
    }

    /// As many as there is room for; those past them stay.
    fn gets_slots(self, beside: &[u64], room: usize) -> Call {
        let slot = |place: usize| beside.get(place).copied().unwrap_or(UNTOUCHED);
        let slots: Vec<[u8; 8]> = (0..room).map(|place| slot(place).to_le_bytes()).collect();
        self.gets("answer", &slots)
    }
}

fn part<const WIDTH: usize>(name: &'static str, all: &[[u8; WIDTH]]) -> Part {
    Part {
        name,
        width: WIDTH,
        bytes: all.concat(),
    }
}

fn of_numbers(numbers: &[i64]) -> Vec<[u8; 8]> {
    numbers.iter().map(|number| number.to_le_bytes()).collect()
}

fn of_cells(cells: &[i32]) -> Vec<[u8; 4]> {
    cells.iter().map(|cell| cell.to_le_bytes()).collect()
}

fn of_bytes(bytes: &[u8]) -> Vec<[u8; 1]> {
    bytes.iter().map(|&byte| [byte]).collect()
}

/// Bytes that a call may write to, as the C side lends them.
fn unwritten(length: usize) -> Vec<u8> {
    (0..length).map(|place| (place * 31 + 7) as u8).collect()
}

/// Any family opens (READINGS-02, 2.2).
pub fn open(family: u32, numbers: &[i64]) -> Call {
    let mut after = numbers.to_vec();
    let result = match after.get_mut(..NUMBERS) {
        None => GRID_TOO_SHORT,
        Some(session) => {
            session.copy_from_slice(&Kept::opened(family.into()).numbers());
            DONE
        }
    };
    Call::new(b'o')
        .says("family", family as usize)
        .lends(SESSION, &of_numbers(numbers))
        .gets_result(result)
        .gets(SESSION, &of_numbers(&after))
}

/// What a delivery is given.
#[derive(Clone, Debug)]
pub struct Delivery {
    pub numbers: Vec<i64>,
    pub number: u32,
    /// Of a run, all its blocks.
    pub block: Block,
    pub grid: Vec<i32>,
    /// How many slots its answer has.
    pub room: usize,
}

/// And what it leaves.
#[derive(Clone, Debug, PartialEq)]
pub struct Left {
    pub told: Told,
    /// Which only a run tells.
    pub count: Option<u32>,
    pub numbers: Vec<i64>,
    pub grid: Vec<i32>,
}

/// One block or a run, delivered to a session that is numbers.
pub type Deliver<Answer> = fn(&mut [i64], u32, &[u8], &mut [i32]) -> Answer;

impl Delivery {
    /// What the reading of sessions as numbers says.
    pub fn leaves(&self) -> Left {
        let (told, numbers, grid) = self.after(kept::deliver);
        Left {
            told,
            count: None,
            numbers,
            grid,
        }
    }

    /// The same of a run.
    pub fn leaves_by_run(&self) -> Left {
        let (ended, numbers, grid) = self.after(runs::deliver);
        Left {
            told: ended.told,
            count: Some(ended.count),
            numbers,
            grid,
        }
    }

    fn after<Answer>(&self, deliver: Deliver<Answer>) -> (Answer, Vec<i64>, Vec<i32>) {
        let (mut numbers, mut grid) = (self.numbers.clone(), self.grid.clone());
        let answer = deliver(&mut numbers, self.number, &self.block, &mut grid);
        (answer, numbers, grid)
    }

    pub fn call(&self, left: &Left) -> Call {
        Call::new(if left.count.is_none() { b'd' } else { b'r' })
            .lends(SESSION, &of_numbers(&self.numbers))
            .says("number", self.number as usize)
            .lends("block", &of_bytes(&self.block))
            .lends("cells", &of_cells(&self.grid))
            .says("room", self.room)
            .gets_result(left.told.result)
            .gets(SESSION, &of_numbers(&left.numbers))
            .gets("cells", &of_cells(&left.grid))
            .gets_slots(&beside(left.told, left.count), self.room)
    }
}

/// Block and byte, and the count of a run.
fn beside(told: Told, count: Option<u32>) -> Vec<u64> {
    let beside = [told.block, told.byte].into_iter().chain(count);
    beside.map(u64::from).collect()
}

/// The C side keeps one grid, of so many cells that all hold this, for deliveries to large sheets.
pub fn keep_grid(cells: usize, held: i32) -> Call {
    Call::new(b'G')
        .says("cells", cells)
        .says("held", held as u32 as usize)
}

/// A stretch of that grid, by its first cell and its last but one.
pub type Window = std::ops::Range<usize>;

/// A stretch of that grid as it must be now.
pub fn look_at_grid(window: Window, grid: &[i32]) -> Call {
    Call::new(b'k')
        .says("first", window.start)
        .says("count", window.len())
        .gets("cells", &of_cells(&grid[window]))
}

/// What a delivery into the front of that grid is given, and the stretch of it that is handed
/// back: at least all the cells that the block may have to do with.
#[derive(Clone, Debug)]
pub struct Placed {
    pub numbers: Vec<i64>,
    pub number: u32,
    pub block: Block,
    pub lent: usize,
    pub window: Window,
    pub room: usize,
}

impl Placed {
    /// What the reading of sessions as numbers says; `grid` is what the C side's must be.
    pub fn leaves<Answer>(&self, deliver: Deliver<Answer>, grid: &mut [i32]) -> (Answer, Vec<i64>) {
        let mut numbers = self.numbers.clone();
        let lent = &mut grid[..self.lent];
        let answer = deliver(&mut numbers, self.number, &self.block, lent);
        (answer, numbers)
    }

    /// A run has a count.
    pub fn call(&self, told: Told, count: Option<u32>, numbers: &[i64], grid: &[i32]) -> Call {
        Call::new(if count.is_none() { b'D' } else { b'R' })
            .lends(SESSION, &of_numbers(&self.numbers))
            .says("number", self.number as usize)
            .lends("block", &of_bytes(&self.block))
            .says("lent", self.lent)
            .says("first", self.window.start)
            .says("count", self.window.len())
            .says("room", self.room)
            .gets_result(told.result)
            .gets(SESSION, &of_numbers(numbers))
            .gets("cells", &of_cells(&grid[self.window.clone()]))
            .gets_slots(&beside(told, count), self.room)
    }
}

/// Sound, complete, and the report into a buffer of `length` bytes.
pub fn session(numbers: &[i64], length: usize) -> Call {
    let kept = kept::sound(numbers);
    let complete = kept.as_ref().is_some_and(|kept| kept.complete());
    let report = kept.as_ref().and_then(|kept| kept.report());
    let report = report.filter(|text| text.len() <= length);
    let mut out = unwritten(length);
    let used = report.map_or(0, |text| {
        out[..text.len()].copy_from_slice(text.as_bytes());
        text.len()
    });
    Call::new(b's')
        .lends(SESSION, &of_numbers(numbers))
        .says("length", length)
        .gets("sound", &[u32::from(kept.is_some()).to_le_bytes()])
        .gets("complete", &[u32::from(complete).to_le_bytes()])
        .gets("used", &[(used as u64).to_le_bytes()])
        .gets("out", &of_bytes(&out))
}

/// Columns and rows of a record A, zeros where it is refused.
pub fn columns(block: &[u8]) -> Call {
    let [columns, rows] = record_a::size_of(USGS, block);
    Call::new(b'c')
        .lends("block", &of_bytes(block))
        .gets("columns", &[columns.to_le_bytes()])
        .gets("rows", &[rows.to_le_bytes()])
}

/// What the calls with a family say of a record A.
#[derive(Clone, Copy, Debug, PartialEq)]
pub struct OfFamily {
    pub kind: u32,
    pub byte: u32,
    pub origin: u32,
    pub size: [i64; 2],
}

impl OfFamily {
    pub fn of(family: u32, block: &[u8]) -> OfFamily {
        let family = family.into();
        let (kind, byte) = record_a::check_of(family, block).err().unwrap_or((0, 0));
        OfFamily {
            kind,
            byte,
            origin: record_a::origin_of(family, block),
            size: record_a::size_of(family, block),
        }
    }

    pub fn call(&self, family: u32, block: &[u8]) -> Call {
        let [columns, rows] = self.size;
        Call::new(b'F')
            .says("family", family as usize)
            .lends("block", &of_bytes(block))
            .gets("kind", &[self.kind.to_le_bytes()])
            .gets("byte", &[self.byte.to_le_bytes()])
            .gets("origin", &[self.origin.to_le_bytes()])
            .gets("columns", &[columns.to_le_bytes()])
            .gets("rows", &[rows.to_le_bytes()])
    }
}

/// What the writer is given: for one block, whose lent bytes are known, or for a sheet.
#[derive(Clone, Debug)]
pub struct Writing {
    pub template: Vec<u8>,
    pub cells: Vec<i32>,
    pub room: usize,
}

impl Writing {
    /// Also what the writer answers, as kind and number; zeros where it is done.
    pub fn block(&self, number: u32, lent: &[u8]) -> (Call, (u32, u32)) {
        let count = write::block_count(&self.template, &self.cells).unwrap_or(0);
        let written = write::write_block(&self.template, &self.cells, number, lent.len());
        let after = written.map_or(lent.to_vec(), |block| block.to_vec());
        let told = written.err().unwrap_or((DONE, 0));
        let call = self
            .call(b'w')
            .says("number", number as usize)
            .lends("lent", &of_bytes(lent))
            .says("room", self.room)
            .gets("blocks", &[u64::from(count).to_le_bytes()])
            .gets_result(told.0)
            .gets("lent", &of_bytes(&after))
            .gets_slots(&[u64::from(told.1)], self.room);
        (call, told)
    }

    /// The buffer's length is judged after all else.
    pub fn sheet(&self, length: usize) -> (Call, (u32, u32)) {
        let blocks = write::sheet_blocks(&self.template, &self.cells);
        let sheet = blocks.map(|blocks| blocks.concat());
        let fitting = sheet.and_then(|sheet| match sheet.len() == length {
            true => Ok(sheet),
            false => Err((WRONG_LENGTH, 0)),
        });
        let told = fitting.as_ref().err().copied().unwrap_or((DONE, 0));
        let after = fitting.unwrap_or_else(|_| unwritten(length));
        let call = self
            .call(b'W')
            .says("length", length)
            .says("room", self.room)
            .gets_result(told.0)
            .gets("out", &of_bytes(&after))
            .gets_slots(&[u64::from(told.1)], self.room);
        (call, told)
    }

    fn call(&self, sort: u8) -> Call {
        Call::new(sort)
            .lends("template", &of_bytes(&self.template))
            .lends("cells", &of_cells(&self.cells))
    }
}

impl Question for Call {
    fn sort(&self) -> u8 {
        self.sort
    }

    fn bytes(&self) -> &[u8] {
        &self.bytes
    }

    fn surroundings(&self) -> usize {
        1
    }

    fn answer_length(&self) -> usize {
        self.answer.iter().map(|part| part.bytes.len()).sum()
    }

    fn demand_same(&self, answer: &[u8]) {
        let mut rest = answer;
        let mut same = true;
        for part in &self.answer {
            let (found, after) = rest.split_at(part.bytes.len());
            same &= found == part.bytes;
            rest = after;
        }
        if !same {
            self.tell_of_a_difference(answer);
        }
    }
}

impl Call {
    fn tell_of_a_difference(&self, answer: &[u8]) -> ! {
        println!("mismatch in a call '{}'", char::from(self.sort));
        for part in &self.request {
            println!("given   {:<9} {}", part.name, part.text(0, MOST_GIVEN));
        }
        let mut rest = answer;
        for part in &self.answer {
            let (found, after) = rest.split_at(part.bytes.len());
            part.tell(found);
            rest = after;
        }
        self.keep();
        exit(1);
    }

    /// The request as the C side reads it, for another look.
    fn keep(&self) {
        let mut frame = vec![self.sort];
        frame.extend((self.bytes.len() as u32).to_le_bytes());
        frame.extend(&self.bytes);
        let own = std::env::args().next().unwrap_or_default();
        let own = std::path::Path::new(&own).file_name().unwrap_or_default();
        let kept = std::env::temp_dir().join(own).with_extension("input");
        match std::fs::write(&kept, frame) {
            Ok(()) => println!("the request is kept in {}", kept.display()),
            Err(fault) => println!("the request cannot be kept: {fault}"),
        }
    }
}

impl Part {
    fn tell(&self, found: &[u8]) {
        let pairs = self.bytes.iter().zip(found);
        let Some(first) = pairs.clone().position(|(a, b)| a != b) else {
            println!("same    {:<9} {}", self.name, self.text(0, SHOWN));
            return;
        };
        let place = first / self.width;
        let theirs = Part {
            name: self.name,
            width: self.width,
            bytes: found.to_vec(),
        };
        let name = match self.name {
            SESSION => NAMES.get(place).unwrap_or(&"past the session"),
            _ => "",
        };
        println!("differs {:<9} from element {place} on {name}", self.name);
        println!("  second  {}", self.text(place, SHOWN));
        println!("  desk    {}", theirs.text(place, SHOWN));
    }

    /// Elements from a place on: text where they are bytes, else numbers with a sign.
    fn text(&self, place: usize, most: usize) -> String {
        let elements = self.bytes.chunks(self.width).skip(place).take(most);
        if self.width == 1 {
            let bytes: Vec<u8> = elements.flatten().copied().collect();
            return format!("\"{}\"", bytes.escape_ascii());
        }
        let mut numbers: Vec<String> = elements.map(|one| number_of(one).to_string()).collect();
        if self.name == SESSION {
            for (number, name) in numbers.iter_mut().zip(NAMES.iter().skip(place)) {
                number.insert_str(0, &format!("{name}="));
            }
        }
        numbers.join(" ")
    }
}

fn number_of(bytes: &[u8]) -> i64 {
    match bytes.try_into() {
        Ok(eight) => i64::from_le_bytes(eight),
        Err(_) => i64::from(i32::from_le_bytes(bytes.try_into().expect("four bytes"))),
    }
}
