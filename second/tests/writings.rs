//! That what the desk's writer is asked for has the faults it is said to have, and that
//! the first of them is the one answered.

mod common;

use common::demand_all_seen;
use second::dice::Dice;
use second::writings::{self, Asked, FAULTS};
use std::collections::BTreeSet;

/// The fault that an answer names, by its kind and number.
fn fault_of(asked: &Asked) -> Option<&'static str> {
    match (asked.told, asked.whole) {
        ((0, _), _) => None,
        ((1, 0), false) => Some("lent length"),
        ((1, 0), true) => Some("out length"),
        ((1, 1), _) => Some("template length"),
        ((5..=10, _), _) => Some("template"),
        ((12, 0), _) => Some("grid"),
        ((13, _), _) => Some("cell"),
        ((14, _), false) => Some("number"),
        _ => panic!("no such answer: {:?}", asked.told),
    }
}

fn demand_the_first_fault(make: fn(&mut Dice, &mut writings::Visit), pairs: Vec<String>) {
    let mut seen = BTreeSet::new();
    make(&mut Dice::new(5), &mut |asked| {
        let first = asked.faults.first().map(|&fault| FAULTS[fault]);
        assert_eq!(fault_of(&asked), first);
        seen.extend(asked.hidden());
    });
    demand_all_seen(pairs, &seen);
}

#[test]
fn the_first_fault_of_a_block_is_answered() {
    demand_the_first_fault(writings::blocks, writings::pairs_of_a_block());
}

#[test]
fn the_first_fault_of_a_sheet_is_answered() {
    demand_the_first_fault(writings::sheets, writings::pairs_of_a_sheet());
}
