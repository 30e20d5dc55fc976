//! Blocks to compare two checks of a record A on, family by family.

pub mod canadian;
mod lattices;
mod wrong;

use crate::dice::Dice;
use crate::sheets::head::{self, Head, ORIGIN_TEXTS};
use crate::sheets::put;
use crate::texts::{Family, Visit};

pub const FAMILIES: &[Family] = &[
    Family {
        name: "valid headers",
        make: valid_headers,
    },
    Family {
        name: "every field's texts",
        make: wrong::every_field,
    },
    Family {
        name: "every field mistyped",
        make: wrong::every_field_mistyped,
    },
    Family {
        name: "every byte changed",
        make: wrong::every_byte,
    },
    Family {
        name: "bytes of texts",
        make: wrong::text_bytes,
    },
    Family {
        name: "several faults",
        make: wrong::several_faults,
    },
    Family {
        name: "whole-record rules",
        make: lattices::broken_rules,
    },
    Family {
        name: "edges of the lattice",
        make: lattices::edges,
    },
    Family {
        name: "any four corners",
        make: lattices::any_corners,
    },
    Family {
        name: "names and origins",
        make: names_and_origins,
    },
    Family {
        name: "other lengths",
        make: wrong::other_lengths,
    },
    Family {
        name: "random bytes",
        make: wrong::random_bytes,
    },
    Family {
        name: "Canadian blocks",
        make: canadian::some_of_all,
    },
];

/// A valid header of any size, the least and the greatest among them.
fn any_head(dice: &mut Dice) -> Head {
    let mut side = || {
        let any = dice.between(1, 2048);
        *dice.pick(&[1, 2, 3, 1201, 2047, 2048, any, any])
    };
    let (columns, rows) = (side(), side());
    head::head(dice, columns, rows)
}

fn any_block(dice: &mut Dice) -> Vec<u8> {
    any_head(dice).block(dice)
}

fn valid_headers(dice: &mut Dice, visit: &mut Visit) {
    for _ in 0..60_000 {
        visit(&any_block(dice));
    }
}

/// Names of every length and any bytes; origins, known ones and ones that look like them.
fn names_and_origins(dice: &mut Dice, visit: &mut Visit) {
    let near = [
        "MAC\0", "mac ", " MAC", "MAC", "GPM1", "GPM2", "MCMC", "MCM ", "RMMC", "WMC\t", "FS",
        " FS ", "F  S", "CMCM",
    ];
    for turn in 0..12_000 {
        let mut block = any_block(dice);
        let name: Vec<u8> = (0..turn % 42).map(|_| name_byte(dice)).collect();
        put(&mut block, 1, &[b' '; 44]);
        put(&mut block, 1, &name);
        let (unlike, known) = (*dice.pick(&near), *dice.pick(&ORIGIN_TEXTS));
        let origin = *dice.pick(&[unlike, known]);
        put(&mut block, 141, format!("{origin:4}").as_bytes());
        visit(&block);
    }
}

fn name_byte(dice: &mut Dice) -> u8 {
    let any = dice.byte();
    *dice.pick(&[b' ', b'A', b'9', b'-', any])
}
