//! The interface of `sender`, and that the orders compared are varied enough.

mod common;

use common::{demand_all_seen, demand_the_same_again, paper_header, put, PAPER_CELLS};
use second::orders::shown::{names, shown};
use second::orders::{self, Order, FAMILIES};
use second::paper;
use second::sender::{run, Outcome};
use std::collections::BTreeSet;

fn order(template: Vec<u8>, cells: &[i32], more: &[u8]) -> Vec<u8> {
    let order = Order {
        template,
        cells: cells.to_vec(),
        more: more.to_vec(),
    };
    order.bytes()
}

fn output(input: &[u8]) -> Vec<u8> {
    run(input).output()
}

#[test]
fn the_papers_sheet() {
    let template = paper::blocks()[0].clone();
    let input = order(template.clone(), &PAPER_CELLS, &[]);
    assert_eq!(output(&input), paper::sheet());
    assert_eq!(&input[1024..1032], [0, 0, 3, 232, 128, 0, 0, 0]);
    let spare = [PAPER_CELLS.to_vec(), vec![1, 2, 3]].concat();
    assert_eq!(output(&order(template, &spare, &[])), paper::sheet());
}

#[test]
fn refused_lines() {
    let mut bad = paper_header();
    put(&mut bad, 145, "     9");
    for (input, line) in [
        (vec![], "refused 1 1\n"),
        (paper_header()[..1023].to_vec(), "refused 1 1\n"),
        (bad, "refused 9 145\n"),
        (paper_header(), "refused 12 0\n"),
        (order(paper_header(), &[1000, 50], &[]), "refused 12 0\n"),
        (
            order(paper_header(), &[0, 0, 0, 0, 0, 50], &[]),
            "refused 13 5\n",
        ),
        (
            order(paper_header(), &[-3_276_700; 6], &[]),
            "refused 13 0\n",
        ),
    ] {
        assert_eq!(output(&input), line.as_bytes());
    }
}

#[test]
fn bad_input_before_all_else() {
    let most = vec![0; 15_000];
    let mut bad = paper_header();
    put(&mut bad, 145, "     9");
    for more in 1..=3 {
        let more = &b"\0\0\0"[..more];
        assert_eq!(run(&order(bad.clone(), &[], more)), Outcome::BadInput);
        assert_eq!(run(&order(bad.clone(), &most, more)), Outcome::BadInput);
    }
    let too_many = vec![0; 15_001];
    assert_eq!(output(&order(bad.clone(), &too_many, &[])), b"bad input\n");
    assert_eq!(output(&order(bad, &most, &[])), b"refused 9 145\n");
    assert!(matches!(
        run(&order(paper_header(), &most, &[])),
        Outcome::Sent(_)
    ));
}

#[test]
fn orders_show_everything_there_is_to_see() {
    let mut seen = BTreeSet::new();
    for number in 0..1_000 {
        let made = orders::make(7, number);
        seen.extend(shown(&made.bytes, &run(&made.bytes)));
    }
    demand_all_seen(names(), &seen);
}

#[test]
fn an_order_is_the_same_whenever_it_is_made() {
    demand_the_same_again(FAMILIES, |number| orders::make(5, number));
}
