//! The lister: the paper's sheet, every way an input can end, how numbers are written,
//! that one reading says what deliveries one by one say, and that streams are varied.

mod common;

use common::{
    blocks_before_statistics, demand_all_seen, demand_the_same_again, paper_blocks, put, statistics,
};
use second::lister::{list, Outcome};
use second::load::{deliver, Answer, Session};
use second::meaning::Refusal;
use second::paper;
use second::streams::shown::{names, shown};
use second::streams::{self, FAMILIES};
use second::turns::ALL_SHARES;
use std::collections::BTreeSet;

const ROOM: usize = 15_000;

fn output(input: &[u8]) -> String {
    list(input, ROOM).output()
}

const PAPER_LINES: &str = "\
sheet 3 2 30 30 1.00
posts 5 void 1
range 9.00 12.00
end 3
";

#[test]
fn the_papers_sheet() {
    assert_eq!(output(&paper::sheet()), PAPER_LINES);
    assert_eq!(output(&paper_blocks().concat()), PAPER_LINES);
    let sample = include_bytes!("../../samples/paper.dem");
    assert_eq!(output(sample), PAPER_LINES);
}

#[test]
fn an_end_at_every_byte() {
    let sheet = paper::sheet();
    for end in 0..=sheet.len() {
        let expected = match (end / 1024, end % 1024) {
            (3, 0) => PAPER_LINES.to_string(),
            (taken, 0) => format!("unfinished {taken}\n"),
            (taken, _) => format!("refused 1 {taken} 0\n"),
        };
        assert_eq!(output(&sheet[..end]), expected);
    }
}

#[test]
fn more_after_the_end() {
    let sheet = paper::sheet();
    let after = |more: usize| output(&[&sheet[..], &vec![b' '; more]].concat());
    assert_eq!(after(1), "refused 1 3 0\n");
    assert_eq!(after(1023), "refused 1 3 0\n");
    assert_eq!(after(1024), "refused 4 3 0\n");
    // The whole block is refused before the part after it.
    assert_eq!(after(1025), "refused 4 3 0\n");
    assert_eq!(after(4096), "refused 4 3 0\n");
}

#[test]
fn a_promised_record_c() {
    let mut blocks = blocks_before_statistics();
    assert_eq!(output(&blocks.concat()), "unfinished 3\n");
    blocks.push(statistics([0; 10]));
    assert_eq!(
        output(&blocks.concat()),
        PAPER_LINES.replace("end 3", "end 4")
    );
    blocks.push(statistics([0; 10]));
    assert_eq!(output(&blocks.concat()), "refused 4 4 0\n");
    blocks.truncate(3);
    blocks.push(statistics([2, 0, 0, 0, 0, 0, 0, 0, 0, 0]));
    assert_eq!(output(&blocks.concat()), "refused 9 3 1\n");
}

#[test]
fn the_first_refusal_and_nothing_else() {
    let mut blocks = paper_blocks();
    put(&mut blocks[2], 1, "     2");
    assert_eq!(output(&blocks.concat()), "refused 9 2 1\n");
    put(&mut blocks[1], 97, "11.0");
    assert_eq!(output(&blocks.concat()), "refused 11 1 97\n");
    put(&mut blocks[0], 145, "     4");
    assert_eq!(output(&blocks.concat()), "refused 9 0 145\n");
    let with_a_part = [blocks.concat(), vec![b' '; 7]].concat();
    assert_eq!(output(&with_a_part), "refused 9 0 145\n");
}

#[test]
fn extremes_of_block_0() {
    let mut blocks = paper_blocks();
    put(&mut blocks[0], 763, &format!("{:24}", "12.01"));
    assert_eq!(output(&blocks[..2].concat()), "unfinished 2\n");
    assert_eq!(output(&blocks.concat()), "refused 11 0 763\n");
}

#[test]
fn cells_lent() {
    let mut blocks = paper_blocks();
    let lines = |blocks: &[Vec<u8>], cells| list(&blocks.concat(), cells).output();
    assert_eq!(lines(&blocks, 6), PAPER_LINES);
    assert_eq!(lines(&blocks, 5), "refused 12 0 0\n");
    put(&mut blocks[1], 1, "     2");
    assert_eq!(lines(&blocks, 5), "refused 12 0 0\n");
    put(&mut blocks[0], 859, "     3");
    assert_eq!(lines(&blocks, 5), "refused 10 0 859\n");
}

/// The paper's sheet in hundredths of metres, with one profile of these two posts.
fn two_posts(posts: [i64; 2], stated: [&str; 2]) -> String {
    let mut blocks = paper_blocks();
    put(&mut blocks[0], 841, "0.01        ");
    put(&mut blocks[0], 859, "     1");
    put(&mut blocks[1], 13, "     2");
    put(
        &mut blocks[1],
        145,
        &format!("{:6}{:6}      ", posts[0], posts[1]),
    );
    for (block, first) in [(0, 739), (1, 97)] {
        let text = format!("{:24}{:24}", stated[0], stated[1]);
        put(&mut blocks[block], first, &text);
    }
    output(&blocks[..2].concat())
}

#[test]
fn two_decimals_and_the_sign() {
    for (posts, stated, range) in [
        ([-5, 5], ["-.05", ".05"], "-0.05 0.05"),
        ([-100, -99], ["-1.", "-.99"], "-1.00 -0.99"),
        ([-100, -99], ["-1D15", "-99E13"], "-1.00 -0.99"),
        ([-32766, 32767], ["-327.66", "327.67"], "-327.66 327.67"),
        ([10, 9], [".09", ".1"], "0.09 0.10"),
        ([0, -32767], ["0", "0"], "0.00 0.00"),
        ([-32767, -32767], ["0", "-0"], "0.00 0.00"),
    ] {
        let voids = posts.iter().filter(|&&post| post == -32767).count();
        let lines = format!("sheet 3 2 30 30 0.01\nposts 2 void {voids}\nrange {range}\nend 2\n");
        assert_eq!(two_posts(posts, stated), lines);
    }
}

/// Block after block, as the lister of the paper is told to work.
fn delivered(input: &[u8], cells: usize) -> String {
    let (mut session, mut grid) = (Session::fresh(), vec![7; cells]);
    for (number, block) in input.chunks(1024).enumerate() {
        let answer = deliver(&mut session, number as u32, block, &mut grid);
        if let Answer::Refused(refusal) = answer {
            return Outcome::Refused(refusal).output();
        }
        assert_eq!(answer, Answer::Taken);
    }
    match session.sheet() {
        Some(sheet) if sheet.complete() => Outcome::Listed(sheet).output(),
        _ => Outcome::Unfinished(session.taken()).output(),
    }
}

#[test]
fn one_reading_says_what_deliveries_say() {
    let mut compared = 0;
    for number in 0..1_500 {
        let made = streams::make(11, number, ROOM);
        // Deliveries read everything again each time, which takes too long for more.
        if made.bytes.len() <= 30 * 1024 {
            let expected = delivered(&made.bytes, ROOM);
            assert_eq!(output(&made.bytes), expected, "{number} {}", made.family);
            compared += 1;
        }
    }
    assert!(compared > 1_000);
}

#[test]
fn streams_show_everything_there_is_to_see() {
    let mut seen = BTreeSet::new();
    for number in 0..1_500 {
        let made = streams::make(7, number, ROOM);
        seen.extend(shown(&made.bytes, ROOM, &list(&made.bytes, ROOM)));
    }
    demand_all_seen(names(), &seen);
}

#[test]
fn a_stream_is_the_same_whenever_it_is_made() {
    demand_the_same_again(FAMILIES, |number| streams::make(5, number, ROOM));
}

#[test]
fn whole_sheets_are_listed_and_large_ones_refused() {
    for number in 0..ALL_SHARES {
        let made = streams::make(3, number, 400);
        match (made.family, list(&made.bytes, 400)) {
            ("low ground", outcome) => assert!(matches!(outcome, Outcome::Listed(_))),
            ("wide sheets", Outcome::Refused(Refusal { kind, block, byte })) => {
                assert_eq!((kind, block, byte), (12, 0, 0));
            }
            _ => {}
        }
    }
}
