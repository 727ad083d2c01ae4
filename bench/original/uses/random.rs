//! What the random programs draw from.

/// Limits on marked descriptors: half of the programs have the greatest.
pub const LIMITS: [u32; 6] = [u32::MAX, u32::MAX, u32::MAX, 100_000, 3000, 128];

/// How many descriptors of a kind a set has. With the last three a pool is for 100, 3 and 1 sets at most.
pub const COUNTS: [u32; 8] = [0, 1, 2, 6, 100, u32::MAX / 100, u32::MAX / 3, u32::MAX];

/// The first so many of them are small. Marked layouts have these alone, since the limit counts their
/// descriptors, and so has the second kind of any layout.
pub const FEW: usize = 5;

/// One call of the device in so many is refused, or none with 0.
pub const ODDS: [usize; 5] = [0, 2, 3, 6, 20];

/// Numbers that look random.
pub struct Random(u64);

impl Random {
    pub fn new(seed: u64) -> Self {
        let mut random = Random(seed);
        // Neighbouring seeds begin alike.
        random.below(1);
        random.0 ^= seed << 20;
        random
    }

    pub fn below(&mut self, end: usize) -> usize {
        self.0 = self.0.wrapping_mul(6364136223846793005).wrapping_add(1442695040888963407);
        (self.0 >> 33) as usize % end
    }

    pub fn one_of<T: Copy>(&mut self, items: &[T]) -> T {
        items[self.below(items.len())]
    }
}
