//! Inputs for `sender`, family by family: what it is asked to write. Each is made from
//! the seed and its own number alone.

mod bad;
mod ground;
pub mod heights;
pub mod shown;
mod templates;
pub mod whole;

use crate::dice::Dice;
use crate::turns::{self, Made};

/// A template and cells; `more` are bytes after the last whole cell.
#[derive(Clone, Debug, Default)]
pub struct Order {
    pub template: Vec<u8>,
    pub cells: Vec<i32>,
    pub more: Vec<u8>,
}

impl Order {
    /// As `sender` is given it, each cell with its largest byte first.
    pub fn bytes(&self) -> Vec<u8> {
        let mut bytes = self.template.clone();
        bytes.extend(self.cells.iter().flat_map(|cell| cell.to_be_bytes()));
        bytes.extend(&self.more);
        bytes
    }
}

type Family = turns::Family<fn(&mut Dice) -> Order>;

/// Each with how many of every hundred orders are of it.
pub const FAMILIES: &[Family] = &[
    Family::of("small sheets", 17, whole::small),
    Family::of("sheets of voids", 8, whole::of_voids),
    Family::of("long profiles", 12, whole::long),
    Family::of("wide sheets", 2, whole::wide),
    Family::of("as many cells as may be", 3, whole::full),
    Family::of("heights at the limits", 12, heights::at_the_limits),
    Family::of("unfit cells", 12, heights::unfit),
    Family::of("grids short and long", 9, bad::grid_of_another_length),
    Family::of("templates damaged", 12, bad::damaged_template),
    Family::of("templates mistyped", 5, bad::mistyped_template),
    Family::of("templates cut short", 3, bad::short_template),
    Family::of("bad input", 5, bad::input),
];

/// Order `number` of the run with this seed.
pub fn make(seed: u64, number: usize) -> Made {
    turns::made(FAMILIES, seed, number, |make, dice| make(dice).bytes())
}
