//! Random choices that a seed determines.

/// A splitmix64 generator.
#[derive(Clone, Debug)]
pub struct Dice(u64);

impl Dice {
    /// What the state grows by at each number.
    const STRIDE: u64 = 0x9E37_79B9_7F4A_7C15;

    /// The factors that mix the state into a number.
    const FACTORS: [u64; 2] = [0xBF58_476D_1CE4_E5B9, 0x94D0_49BB_1331_11EB];

    /// The generator that begins with this seed.
    pub fn seeded(seed: u64) -> Dice {
        Dice(seed)
    }

    /// The next number.
    pub fn number(&mut self) -> u64 {
        self.0 = self.0.wrapping_add(Dice::STRIDE);
        let mixed = (self.0 ^ (self.0 >> 30)).wrapping_mul(Dice::FACTORS[0]);
        let mixed = (mixed ^ (mixed >> 27)).wrapping_mul(Dice::FACTORS[1]);
        mixed ^ (mixed >> 31)
    }

    /// A number below a bound that is not 0.
    pub fn below(&mut self, bound: usize) -> usize {
        (self.number() % bound as u64) as usize
    }

    /// A number from `least` to `greatest`.
    pub fn between(&mut self, least: usize, greatest: usize) -> usize {
        least + self.below(greatest - least + 1)
    }

    /// True one time in `times`.
    pub fn once_in(&mut self, times: usize) -> bool {
        self.below(times) == 0
    }

    /// True half of the time.
    pub fn coin(&mut self) -> bool {
        self.below(2) == 0
    }

    /// One of the given values.
    pub fn one_of<T: Copy>(&mut self, values: &[T]) -> T {
        values[self.below(values.len())]
    }

    /// Any byte.
    pub fn byte(&mut self) -> u8 {
        self.number() as u8
    }

    /// Any byte but this one: mostly a bit is wrong, else all of them, or whichever.
    pub fn wrong(&mut self, right: u8) -> u8 {
        let bit = 1 << self.below(u8::BITS as usize);
        let any = self.between(1, usize::from(u8::MAX)) as u8;
        right ^ self.one_of(&[bit, bit, bit, u8::MAX, any])
    }

    /// So many bytes: counting up from one, all the same, or mostly any.
    pub fn bytes(&mut self, count: usize) -> Vec<u8> {
        let first = self.byte();
        match self.below(4) {
            3 => (0..count).map(|index| first.wrapping_add(index as u8)).collect(),
            2 => vec![self.one_of(&[u8::MIN, u8::MAX, first]); count],
            _ => (0..count).map(|_| self.byte()).collect(),
        }
    }
}
