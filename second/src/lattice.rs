//! One axis of the lattice: the multiples of a spacing from the smallest corner value to
//! the largest. All numbers are billionths; i128 leaves room to spare, so nothing here can
//! pass its limits.

#[derive(Clone, Debug, PartialEq)]
pub struct Axis {
    spacing: i128,
    /// How many spacings from zero the first multiple stands, and how many there are.
    first: i128,
    count: i128,
}

impl Axis {
    /// `spacing` is above zero and `least` not above `greatest`.
    pub fn between(least: i64, greatest: i64, spacing: i64) -> Axis {
        let spacing = i128::from(spacing);
        let first = quotient_upward(i128::from(least), spacing);
        let last = quotient_downward(i128::from(greatest), spacing);
        Axis {
            spacing,
            first,
            count: last - first + 1,
        }
    }

    /// 0 if no multiple lies between the corner values.
    pub fn count(&self) -> i64 {
        self.count as i64
    }

    pub fn start(&self) -> i64 {
        (self.first * self.spacing) as i64
    }

    pub fn end(&self) -> i64 {
        ((self.first + self.count - 1) * self.spacing) as i64
    }

    /// Which column or row stands at `value`, if one does.
    pub fn place_of(&self, value: i64) -> Option<i64> {
        (0..self.count)
            .find(|place| (self.first + place) * self.spacing == i128::from(value))
            .map(|place| place as i64)
    }
}

/// Toward the smaller number, for negative quotients too.
fn quotient_downward(value: i128, spacing: i128) -> i128 {
    let cut = value / spacing;
    if cut * spacing > value {
        cut - 1
    } else {
        cut
    }
}

fn quotient_upward(value: i128, spacing: i128) -> i128 {
    let cut = value / spacing;
    if cut * spacing < value {
        cut + 1
    } else {
        cut
    }
}
