//! A small generator of numbers.

/// A small generator of numbers (splitmix64).
#[derive(Clone, Debug)]
pub struct Rng(u64);

impl Rng {
    /// The generator of `seed`.
    pub fn new(seed: u64) -> Rng {
        Rng(seed)
    }

    /// The next 64 bits.
    pub fn bits(&mut self) -> u64 {
        self.0 = self.0.wrapping_add(0x9E37_79B9_7F4A_7C15);
        let mut mixed = self.0;
        mixed = (mixed ^ (mixed >> 30)).wrapping_mul(0xBF58_476D_1CE4_E5B9);
        mixed = (mixed ^ (mixed >> 27)).wrapping_mul(0x94D0_49BB_1331_11EB);
        mixed ^ (mixed >> 31)
    }

    /// Any 32 bits.
    pub fn any(&mut self) -> u32 {
        (self.bits() >> 32) as u32
    }

    /// A number from `least` to `most`.
    pub fn within(&mut self, least: u32, most: u32) -> u32 {
        let span = u64::from(most - least) + 1;
        least + ((u64::from(self.any()) * span) >> 32) as u32
    }

    /// A signed number from `least` to `most`.
    pub fn within_signed(&mut self, least: i32, most: i32) -> i32 {
        let span = (i64::from(most) - i64::from(least)) as u32;
        (i64::from(least) + i64::from(self.within(0, span))) as i32
    }

    /// A place in something of `length`, which isn't 0.
    pub fn place(&mut self, length: usize) -> usize {
        (self.bits() % length as u64) as usize
    }

    /// True once in `times`.
    pub fn once_in(&mut self, times: u32) -> bool {
        self.within(1, times) == 1
    }

    /// True or false.
    pub fn coin(&mut self) -> bool {
        self.once_in(2)
    }

    /// One of `choices`.
    pub fn pick<T: Copy>(&mut self, choices: &[T]) -> T {
        choices[self.place(choices.len())]
    }

    /// `centre`, or a neighbour of it.
    pub fn near(&mut self, centre: u32) -> u32 {
        match self.within(0, 3) {
            0 => centre.saturating_sub(1),
            1 => centre.saturating_add(1),
            _ => centre,
        }
    }

    /// A number of any length of spelling.
    pub fn any_length(&mut self) -> u32 {
        let shift = self.within(0, 31);
        match self.within(0, 7) {
            0 => u32::MAX - self.within(0, 1),
            1 => (1 << (shift / 7 * 7)) - self.within(0, 1),
            _ => self.any() >> shift,
        }
    }
}
