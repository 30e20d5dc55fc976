//! The paper's sheet as bytes: what the loader here makes of it, and the sample file.

mod common;

use common::demand_the_papers_sheet;
use second::paper;
use second::record_a;

#[test]
fn it_loads_as_the_cells_and_counts_of_the_paper() {
    demand_the_papers_sheet(&paper::blocks());
}

/// The header typed out by hand for the other tests differs in its texts alone.
#[test]
fn its_header_says_what_the_typed_one_says() {
    let blocks = paper::blocks();
    let typed = record_a::check(&common::paper_header());
    assert_eq!(record_a::check(&blocks[0]), typed);
    assert_eq!(record_a::name_length(&blocks[0]), "PAPER SHEET".len());
    assert_eq!(record_a::origin(&blocks[0]), 0);
    let text = &blocks[0][..144];
    assert_eq!(text.trim_ascii_end(), b"PAPER SHEET");
    let zeros = "   0.000000000000000D+00".repeat(15);
    assert_eq!(&blocks[0][168..528], zeros.as_bytes());
    assert!(blocks[0][864..].iter().all(|&byte| byte == b' '));
}

#[test]
fn the_sample_file_is_this_sheet() {
    let sample = include_bytes!("../../samples/paper.dem");
    assert_eq!(sample.len(), 3 * 1024);
    assert_eq!(sample[..], paper::sheet());
}
