//! The lines of `replay`: the paper's sheet, and scripts that are bad in each way.

mod common;

use common::{level_column, paper_blocks, put, two_hundred_posts};
use second::replay::{run, Script};

fn script_of(blocks: &[Vec<u8>], cells: u32) -> Script {
    let mut script = Script::new(cells);
    for (number, block) in blocks.iter().enumerate() {
        script.deliver(cells, number as u32, block);
    }
    script
}

fn paper_script(cells: u32) -> Script {
    script_of(&paper_blocks(), cells)
}

fn lines(script: &Script) -> Vec<String> {
    let output = run(&script.bytes).output;
    assert!(output.ends_with('\n'));
    output.lines().map(str::to_string).collect()
}

const DONE: [&str; 11] = [
    "taken",
    "taken",
    "taken",
    "session 3 2 5 4 900 1200 4200",
    "cells 7",
    "1000",
    "-2147483648",
    "1200",
    "-2147483648",
    "1100",
    "900",
];

#[test]
fn the_papers_sheet() {
    assert_eq!(lines(&paper_script(7)), [&DONE[..], &["7"]].concat());
}

/// Taken, closed, posts, filled, least, greatest, sum.
fn session_line(blocks: &[Vec<u8>]) -> String {
    let lines = lines(&script_of(blocks, 2048));
    lines[blocks.len()].clone()
}

#[test]
fn the_sum_ends_the_session_line() {
    let mut blocks = two_hundred_posts();
    let inside = "session 2 0 146 146 350 14850 1109600";
    assert_eq!(session_line(&blocks[..2]), inside);
    let whole = "session 3 1 200 200 350 20250 2060000";
    assert_eq!(session_line(&blocks), whole);
    // A refused closing leaves all as it was.
    put(&mut blocks[1], 121, &format!("{:24}", "148.50"));
    let lines = lines(&script_of(&blocks, 2048));
    assert_eq!(lines[2..4], ["refused 11 1 121", inside]);
}

#[test]
fn sums_past_32_bits() {
    let high = "session 14 1 2048 2048 4276700 4276700 8758681600";
    assert_eq!(session_line(&level_column(32767, 1_000_000)), high);
    let deep = "session 14 1 2048 2048 -4276600 -4276600 -8758476800";
    assert_eq!(session_line(&level_column(-32766, -1_000_000)), deep);
}

#[test]
fn no_deliveries() {
    assert_eq!(lines(&Script::new(0)), ["session 0 0 0 0 0 0 0", "cells 0"]);
    let two = ["session 0 0 0 0 0 0 0", "cells 2", "7", "7"];
    assert_eq!(lines(&Script::new(2)), two);
    assert_eq!(lines(&Script::new(15_000)).len(), 15_002);
}

#[test]
fn held_and_refused_lines() {
    let blocks = paper_blocks();
    let mut script = Script::new(6);
    script.deliver(5, 0, &blocks[0]);
    script.deliver(6, u32::MAX, &blocks[0]);
    script.deliver(6, 0, &blocks[0]);
    script.deliver(0, 0, &blocks[0]);
    script.deliver(6, 1, &[b' '; 4096]);
    script.deliver(6, 1, &[]);
    script.deliver(6, 1, &blocks[2]);
    let expected = [
        "refused 12 0 0",
        "refused 3 4294967295 0",
        "taken",
        "held",
        "refused 1 1 0",
        "refused 1 1 0",
        "refused 9 1 7",
        "session 1 0 0 0 0 0 0",
        "cells 6",
    ];
    assert_eq!(lines(&script)[..9], expected);
}

#[test]
fn an_input_of_fewer_than_four_bytes() {
    for bytes in [&[][..], &[0], &[0, 0], &[0, 0, 0]] {
        assert_eq!(run(bytes).output, "bad script\n");
    }
}

#[test]
fn too_many_cells() {
    assert_eq!(lines(&Script::new(15_001)), ["bad script"]);
    assert_eq!(lines(&Script::new(u32::MAX)), ["bad script"]);
    let mut script = paper_script(6);
    script.deliver(7, 3, &[b' '; 1024]);
    assert_eq!(lines(&script), ["taken", "taken", "taken", "bad script"]);
}

#[test]
fn too_many_bytes() {
    for length in [4_097, u32::MAX] {
        let mut script = paper_script(6);
        script.announce(6, 3, length);
        script.bytes.extend(vec![b' '; 5_000]);
        assert_eq!(lines(&script), ["taken", "taken", "taken", "bad script"]);
    }
}

#[test]
fn an_end_at_every_byte_of_a_delivery() {
    let blocks = paper_blocks();
    let mut script = Script::new(6);
    script.deliver(6, 0, &blocks[0]);
    let whole = script.bytes.clone();
    script.deliver(6, 1, &blocks[1]);
    for end in whole.len()..=script.bytes.len() {
        let output = run(&script.bytes[..end]).output;
        let expected = match end - whole.len() {
            0 => "taken\nsession 1 0 0 0 0 0 0\ncells 6\n",
            1036 => "taken\ntaken\nsession 2 1 3 2 1000 1200 2200\ncells 6\n",
            _ => "taken\nbad script\n",
        };
        assert!(output.starts_with(expected), "end at {end}");
        assert_eq!(output.contains("cells"), expected.contains("cells"));
    }
}
