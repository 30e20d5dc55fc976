//! Where the very byte stands in a block (02, request 6; READINGS-02, 6.2, 6.4 to 6.8): every record,
//! every family, the writer's template, the lister and the button, and the sample sheet with a
//! mistyped post. Answers are counted out by hand from the bytes of each field.

mod common;

use common::{
    blocks_before_statistics, numbers_after, ottawa, ottawa_profile, paper_blocks, paper_header,
    put, statistics, told, two_hundred_posts, PAPER_CELLS,
};
use second::block::Record;
use second::family::{CANADIAN, USGS};
use second::frames;
use second::kept::{self, Kept, Told, DONE};
use second::lister::list;
use second::load::{deliver, Answer, Session};
use second::orders::Order;
use second::paper;
use second::record_a::{check, check_of};
use second::runs;
use second::sender;
use second::sheets::damage::STRANGERS;
use second::spots;
use second::typo;
use second::write::{block_count, write_block};
use std::collections::BTreeSet;
use std::ops::RangeInclusive;

/// The block that a session of this family awaits after some blocks, and the bytes in which it
/// has numbers. All of it is right.
struct Due {
    family: i64,
    before: Vec<Vec<u8>>,
    block: Vec<u8>,
    numbers: Vec<RangeInclusive<usize>>,
    cells: usize,
}

impl Due {
    fn of(blocks: Vec<Vec<u8>>, numbers: &[RangeInclusive<usize>]) -> Due {
        let (block, before) = blocks.split_last().expect("a block is due");
        Due {
            family: USGS,
            before: before.to_vec(),
            block: block.clone(),
            numbers: numbers.to_vec(),
            cells: 2048,
        }
    }

    fn canadian(blocks: Vec<Vec<u8>>, numbers: &[RangeInclusive<usize>]) -> Due {
        Due {
            family: CANADIAN,
            cells: 1_442_401,
            ..Due::of(blocks, numbers)
        }
    }

    /// The session that awaits it, as numbers.
    fn session(&self) -> (Vec<i64>, Vec<i32>) {
        let mut numbers = Kept::opened(self.family).numbers().to_vec();
        let mut grid = vec![7; self.cells];
        for (number, block) in self.before.iter().enumerate() {
            let answer = kept::deliver(&mut numbers, number as u32, block, &mut grid);
            assert_eq!(answer, told(DONE, 0, 0));
        }
        (numbers, grid)
    }

    /// What a session says to it with a text put in; nothing may change.
    fn answer(&self, (numbers, grid): &mut (Vec<i64>, Vec<i32>), byte: usize, text: &[u8]) -> Told {
        let mut block = self.block.clone();
        second::block::put(&mut block, byte, text);
        let before = numbers.clone();
        let number = self.before.len() as u32;
        let told = kept::deliver(numbers, number, &block, grid);
        assert_ne!(told.result, DONE);
        assert_eq!(*numbers, before);
        told
    }
}

/// Bytes 145 to 864 of every record A are numbers, the corner of a Canadian one besides; a
/// profile's head, its posts up to the last, and record C.
fn every_record() -> Vec<Due> {
    let paper = paper_blocks();
    let posts: Vec<i64> = (0..1201).collect();
    let mut north = vec![ottawa()];
    north.extend(ottawa_profile(0, &posts, (0, 1200)));
    let with_statistics = [
        blocks_before_statistics(),
        vec![statistics([1, 5, 0, 9, 28, 1, 0, 0, 0, 1])],
    ];
    vec![
        Due::of(paper[..1].to_vec(), &[145..=864]),
        Due::of(paper[..2].to_vec(), &[1..=144, 145..=162]),
        Due::of(paper.clone(), &[1..=144, 145..=156]),
        Due::of(two_hundred_posts(), &[1..=324]),
        Due::of(with_statistics.concat(), &[1..=60]),
        Due::canadian(north[..1].to_vec(), &[110..=135, 145..=864]),
        Due::canadian(north[..2].to_vec(), &[1..=1020]),
        Due::canadian(north[..3].to_vec(), &[1..=1020]),
    ]
}

/// 6.5: all before it being right, a byte that no number has is the very byte, in every number of
/// every record: 169 to 528, where only the form counts, and record C are no exceptions. A slip: the
/// byte after it, or the first of the field.
#[test]
fn a_stranger_at_every_byte() {
    let mut met = 0;
    for due in every_record() {
        let mut session = due.session();
        let number = due.before.len() as u32;
        for byte in due.numbers.iter().cloned().flatten() {
            let stranger = STRANGERS[byte % STRANGERS.len()];
            let answer = due.answer(&mut session, byte, &[stranger]);
            assert_eq!(answer, told(6, number, byte as u32));
            met += 1;
        }
    }
    assert_eq!(met, 720 + 162 + 156 + 324 + 60 + 746 + 1020 + 1020);
}

/// 6.2: the four that are given there. A slip is the last byte that is not blank, or the first.
#[test]
fn blank_fields() {
    let blank = |block: &[u8], first: usize, width: usize| {
        let mut block = block.to_vec();
        put(&mut block, first, &" ".repeat(width));
        block
    };
    let level = blank(&paper_header(), 145, 6);
    assert_eq!(check(&level), Err((6, 150)));
    let real = blank(&paper_header(), 169, 24);
    assert_eq!(check(&real), Err((6, 192)));
    let (numbers, grid) = numbers_after(&paper_blocks()[..1], 6);
    let answer = |block: &[u8]| kept::deliver(&mut numbers.clone(), 1, block, &mut grid.clone());
    let post = blank(&paper_blocks()[1], 145, 6);
    assert_eq!(answer(&post), told(6, 1, 150));
    assert_eq!(answer(&[b' '; 1024]), told(6, 1, 6));
    // A further block that is all blank: its first post. A record C, its first code.
    let further = &two_hundred_posts()[..2];
    let (mut numbers, mut grid) = numbers_after(further, 2048);
    let answer = kept::deliver(&mut numbers, 2, &[b' '; 1024], &mut grid);
    assert_eq!(answer, told(6, 2, 6));
    let (mut numbers, mut grid) = numbers_after(&blocks_before_statistics(), 6);
    let answer = kept::deliver(&mut numbers, 3, &[b' '; 1024], &mut grid);
    assert_eq!(answer, told(6, 3, 6));
    // A blank block 0 has good text and no level.
    assert_eq!(check(&[b' '; 1024]), Err((6, 150)));
}

/// "Across the requests", 2 + 6: fields of four, two and seven bytes.
#[test]
fn blank_parts_of_a_corner() {
    for (first, width, last) in [
        (110, 4, 113),
        (114, 2, 115),
        (116, 7, 122),
        (123, 4, 126),
        (127, 2, 128),
        (129, 7, 135),
    ] {
        let mut block = ottawa();
        put(&mut block, first, &" ".repeat(width));
        assert_eq!(check_of(CANADIAN, &block), Err((6, last)));
    }
    // To the calls that know of no family these are text.
    assert_eq!(check(&ottawa()), Err((5, 1)));
}

/// Byte, text put there, and the very byte.
type Row = (usize, &'static str, u32);

/// 6.4, 6.5 in record A. The corners are `   0.600000000000000D+03` and the like, the first at 547;
/// the spacings `0.300000E+02` from 817 on.
const HEADER_ROWS: [Row; 22] = [
    // An integer may not be followed by a blank.
    (145, "1     ", 146),
    (859, "   2  ", 863),
    (163, "17    ", 165),
    // A real may be, but by nothing else: the byte behind the blanks, not a blank.
    (547, "600.0   .               ", 555),
    (571, "900.0                  0", 594),
    (595, "600.0 D+00              ", 601),
    (817, "30.0      0 ", 827),
    // A blank behind a sign, a point alone, a letter, its sign.
    (619, "   -   960.0            ", 623),
    (643, "   .                    ", 647),
    (667, "0.96D                   ", 672),
    (691, "0.63D+                  ", 697),
    (829, "3.E         ", 832),
    // Where the field ends there, its last byte.
    (715, "                  0.900D", 738),
    (739, "                       -", 762),
    (841, "         1.D", 852),
    // A third digit in the exponent, a second point, a second sign, small letters, no letter.
    (763, "0.120000000000000D+002  ", 784),
    (787, "0.0.                    ", 790),
    (169, "--1.0                   ", 170),
    (505, "0.0d+00                 ", 508),
    (481, "0.0+00                  ", 484),
    // Only the form of these counts, also where the number is past every limit.
    (193, "1D99x                   ", 197),
    (529, "    2\t", 534),
];

#[test]
fn forms_in_record_a() {
    for (first, text, byte) in HEADER_ROWS {
        let mut block = paper_header();
        put(&mut block, first, text);
        assert_eq!(check(&block), Err((6, byte)), "\"{text}\" at {first}");
        // The writer's template by the same place; a slip is the field's first byte.
        let cells = PAPER_CELLS.to_vec();
        assert_eq!(write_block(&block, &cells, 0, 1024), Err((6, byte)));
        assert_eq!(block_count(&block, &cells), Err((6, byte)));
        let order = Order {
            template: block.clone(),
            cells,
            more: Vec::new(),
        };
        let line = sender::run(&order.bytes()).output();
        assert_eq!(line, format!("refused 6 {byte}\n").as_bytes());
        // The lister, a delivery, a run and the button.
        let line = format!("refused 6 0 {byte}\n");
        assert_eq!(list(&block, 15_000).output(), line);
        let told = told(6, 0, byte);
        let fresh = || Kept::fresh().numbers().to_vec();
        assert_eq!(kept::deliver(&mut fresh(), 0, &block, &mut [0; 6]), told);
        let run = [block.clone(), paper_blocks()[1].clone()].concat();
        let ended = runs::deliver(&mut fresh(), 0, &run, &mut [0; 6]);
        assert_eq!((ended.told, ended.count), (told, 0));
        let pressed = frames::press(USGS, &frames::line_of(&block));
        assert_eq!(pressed, line + "unfinished 0\n");
    }
}

/// The same in profile 1 of the paper, in whose block the posts are 10, void, 12.
#[test]
fn forms_in_a_profile() {
    for (first, text, byte) in [
        (1, "1     ", 2),
        (7, "   1 1", 11),
        (13, "     +", 18),
        (19, "  1.0 ", 22),
        (25, "600.0 x", 31),
        (49, "900.0D+", 56),
        (73, " ..", 75),
        (97, "1 0.0", 99),
        (121, "12.0D001", 128),
        (145, "10    ", 147),
        (151, "- 2767", 152),
        (157, "   1O2", 161),
    ] {
        let mut blocks = paper_blocks();
        put(&mut blocks[1], first, text);
        let line = format!("refused 6 1 {byte}\n");
        assert_eq!(list(&blocks.concat(), 6).output(), line, "{text}");
        let (mut session, mut grid) = (Session::fresh(), vec![7; 6]);
        assert_eq!(
            deliver(&mut session, 0, &blocks[0], &mut grid),
            Answer::Taken
        );
        let answer = deliver(&mut session, 1, &blocks[1], &mut grid);
        assert!(matches!(answer, Answer::Refused(refusal) if refusal.line() == line));
        // "3 + 6": behind a block taken, the same place.
        let mut numbers = Kept::fresh().numbers().to_vec();
        let ended = runs::deliver(&mut numbers, 0, &blocks.concat(), &mut [7; 6]);
        assert_eq!((ended.told, ended.count), (told(6, 1, byte), 1));
    }
}

/// 6.3, 6.8: what is no fault of form stays at its field's first byte, or its stretch's.
#[test]
fn other_faults_do_not_move() {
    for (first, text, fault) in [
        (144, "a", (5, 1)),
        (1024, "a", (5, 865)),
        (547, "                   1.D+9", (7, 547)),
        (571, "                  1.D-10", (8, 571)),
        (145, "     9", (9, 145)),
        (787, "                     1.0", (9, 787)),
        (829, "        29.5", (7, 829)),
        (859, "  2049", (7, 859)),
        (859, "     3", (10, 859)),
        (595, "                    631.", (10, 547)),
    ] {
        let mut block = paper_header();
        put(&mut block, first, text);
        assert_eq!(check(&block), Err(fault), "\"{text}\" at {first}");
    }
}

/// 6.6: the order of the fields stays: a late byte of an early field before whatever is wrong with
/// the next one, and a fault at a field's first byte before a late one of the next.
#[test]
fn the_order_of_faults_stays() {
    let mut block = paper_header();
    put(&mut block, 864, "x");
    assert_eq!(check(&block), Err((6, 864)));
    put(&mut block, 853, "     2");
    assert_eq!(check(&block), Err((9, 853)));
    put(&mut block, 817, "        29.5");
    assert_eq!(check(&block), Err((7, 817)));
    put(&mut block, 816, "x");
    assert_eq!(check(&block), Err((6, 816)));
    put(&mut block, 787, "                     1.0");
    assert_eq!(check(&block), Err((9, 787)));
    put(&mut block, 528, "x");
    assert_eq!(check(&block), Err((6, 528)));
    put(&mut block, 169, "x");
    assert_eq!(check(&block), Err((6, 169)));
    put(&mut block, 163, "    61");
    assert_eq!(check(&block), Err((9, 163)));
    put(&mut block, 150, "x");
    assert_eq!(check(&block), Err((6, 150)));
    put(&mut block, 144, "a");
    assert_eq!(check(&block), Err((5, 1)));
}

/// The sample: the paper's sheet but for one post, which the lister points into.
#[test]
fn the_sample_sheet() {
    let sample = include_bytes!("../../samples/TYPO.DEM");
    assert_eq!(sample[..], typo::sheet());
    let paper = paper::sheet();
    assert_eq!(sample.len(), paper.len());
    let differ = |&place: &usize| sample[place] != paper[place];
    let different: Vec<usize> = (0..paper.len()).filter(differ).collect();
    // Block 1, bytes 160 and 161; the post has 157 to 162.
    assert_eq!(different, [1024 + 159, 1024 + 160]);
    assert_eq!(&sample[1024 + 156..1024 + 162], b"   1O2");
    let line = list(sample, 15_000).output();
    assert_eq!(line, "refused 6 1 161\n");
    assert_eq!(line, include_str!("../../samples/TYPO.txt"));
    let pressed = frames::press(USGS, &frames::line_of(&sample[..2048]));
    assert_eq!(pressed, "refused 6 1 161\nunfinished 1\n");
}

/// A line feed between blocks stands at the first byte of a field, so it is told as before.
#[test]
fn the_sample_with_line_ends() {
    let line = list(include_bytes!("../../samples/LINES.DEM"), 15_000).output();
    assert_eq!(line, "refused 6 1 1\n");
    assert_eq!(line, include_str!("../../samples/LINES.txt"));
}

/// What comparisons count of it: the sort of field, and whether it is its first byte or last.
#[test]
fn spots_that_comparisons_count() {
    let name = |family, record, byte| spots::shown(family, record, (6, byte));
    for (record, byte, shown) in [
        (Record::Header, 145, "6 in a code of record A, first byte"),
        (Record::Header, 149, "6 in a code of record A, inside"),
        (Record::Header, 150, "6 in a code of record A, last byte"),
        (Record::Header, 192, "6 in a real of form only, last byte"),
        (Record::Header, 840, "6 in a spacing, last byte"),
        (Record::Header, 818, "6 in a spacing, inside"),
        (
            Record::ProfileStart,
            25,
            "6 in a real of a profile's head, first byte",
        ),
        (
            Record::ProfileStart,
            161,
            "6 in a post of a first block, inside",
        ),
        (
            Record::ProfileRest,
            1020,
            "6 in a post of a further block, last byte",
        ),
        (
            Record::Statistics,
            55,
            "6 in a number of record C, first byte",
        ),
    ] {
        assert_eq!(name(USGS, record, byte).as_deref(), Some(shown));
        assert!(spots::wanted(USGS, &[record]).contains(&shown.to_string()));
    }
    let minutes = "Canadian, 6 in the corner's minutes, last byte".to_string();
    assert_eq!(name(CANADIAN, Record::Header, 128), Some(minutes));
    assert_eq!(name(USGS, Record::Header, 128), None);
    assert_eq!(spots::shown(USGS, Record::Header, (7, 145)), None);
    // Three spots for each sort, but two for the minutes.
    assert_eq!(spots::wanted(USGS, &[Record::Header]).len(), 12);
    assert_eq!(spots::wanted(CANADIAN, &[Record::Header]).len(), 12 + 8);
    for due in every_record().iter().filter(|due| due.before.is_empty()) {
        let numbers: BTreeSet<u32> = spots::number_bytes(due.family, Record::Header)
            .into_iter()
            .collect();
        let ranges = due.numbers.iter().cloned().flatten();
        assert!(numbers.iter().copied().eq(ranges.map(|byte| byte as u32)));
    }
}
