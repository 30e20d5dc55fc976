//! A small generator of numbers that repeat for a given seed (splitmix64).

pub struct Dice {
    state: u64,
}

impl Dice {
    pub fn new(seed: u64) -> Dice {
        Dice { state: seed }
    }

    /// For input `number` of the run with this seed, whatever came before it.
    pub fn numbered(seed: u64, number: usize) -> Dice {
        let mut mixer = Dice::new(seed ^ (number as u64).wrapping_mul(0xD1B5_4A32_D192_ED03));
        Dice::new(mixer.roll())
    }

    pub fn roll(&mut self) -> u64 {
        self.state = self.state.wrapping_add(0x9E37_79B9_7F4A_7C15);
        let mut mixed = self.state;
        mixed = (mixed ^ (mixed >> 30)).wrapping_mul(0xBF58_476D_1CE4_E5B9);
        mixed = (mixed ^ (mixed >> 27)).wrapping_mul(0x94D0_49BB_1331_11EB);
        mixed ^ (mixed >> 31)
    }

    /// From `least` to `greatest`, both included.
    pub fn between(&mut self, least: i64, greatest: i64) -> i64 {
        let choices = (greatest - least + 1) as u64;
        least + (self.roll() % choices) as i64
    }

    pub fn size(&mut self, least: usize, greatest: usize) -> usize {
        self.between(least as i64, greatest as i64) as usize
    }

    pub fn one_in(&mut self, times: i64) -> bool {
        self.between(1, times) == 1
    }

    pub fn pick<'a, T>(&mut self, from: &'a [T]) -> &'a T {
        &from[self.size(0, from.len() - 1)]
    }

    pub fn byte(&mut self) -> u8 {
        self.roll() as u8
    }

    /// `count` digits, as characters.
    pub fn digits(&mut self, count: usize) -> Vec<u8> {
        (0..count).map(|_| *self.pick(b"0123456789")).collect()
    }
}
