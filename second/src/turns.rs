//! Families of inputs take turns by their shares, so that a short run has some of each.

use crate::dice::Dice;

/// The shares of the families of one comparison come to this.
pub const ALL_SHARES: usize = 100;

pub struct Family<Maker> {
    pub name: &'static str,
    /// How many of every hundred inputs are of this family.
    pub share: usize,
    pub make: Maker,
}

impl<Maker> Family<Maker> {
    pub const fn of(name: &'static str, share: usize, make: Maker) -> Family<Maker> {
        Family { name, share, make }
    }
}

/// An input, and the name of the family it is of.
pub struct Made {
    pub family: &'static str,
    pub bytes: Vec<u8>,
}

/// Input `number` of the run with this seed, from the maker of the family whose turn it is.
pub fn made<Maker>(
    families: &[Family<Maker>],
    seed: u64,
    number: usize,
    bytes: impl Fn(&Maker, &mut Dice) -> Vec<u8>,
) -> Made {
    let family = turn_of(number, families);
    Made {
        family: family.name,
        bytes: bytes(&family.make, &mut Dice::numbered(seed, number)),
    }
}

fn turn_of<Maker>(number: usize, families: &[Family<Maker>]) -> &Family<Maker> {
    // 37 has no divisor in common with the 100 shares, so all of them get their turn.
    let mut turn = number * 37 % ALL_SHARES;
    for family in families {
        if turn < family.share {
            return family;
        }
        turn -= family.share;
    }
    panic!("the shares come to less than {ALL_SHARES}")
}
