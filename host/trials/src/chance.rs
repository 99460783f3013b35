//! Random numbers that are the same again for the same seed (splitmix64).

pub struct Chance(u64);

const STEP: u64 = 0x9e37_79b9_7f4a_7c15;

impl Chance {
    /// Each batch has its own numbers, so that one batch can be made again alone.
    pub fn new(seed: u64, batch: u64) -> Chance {
        let mut chance = Chance(seed);
        chance.0 = chance.draw().wrapping_add(batch.wrapping_mul(STEP));
        Chance(chance.draw())
    }

    /// Numbers of its own for another use.
    pub fn fork(&mut self) -> Chance {
        Chance(self.draw())
    }

    pub fn draw(&mut self) -> u64 {
        self.0 = self.0.wrapping_add(STEP);
        let mut mixed = self.0;
        mixed = (mixed ^ (mixed >> 30)).wrapping_mul(0xbf58_476d_1ce4_e5b9);
        mixed = (mixed ^ (mixed >> 27)).wrapping_mul(0x94d0_49bb_1331_11eb);
        mixed ^ (mixed >> 31)
    }

    fn below(&mut self, bound: u64) -> u64 {
        self.draw() % bound
    }

    /// From the least to the most; the least, where there is nothing between them.
    pub fn between(&mut self, least: i64, most: i64) -> i64 {
        let width = (most - least).max(0) as u64 + 1;
        least + self.below(width) as i64
    }

    pub fn percent(&mut self, share: u64) -> bool {
        self.below(100) < share
    }

    pub fn pick<T: Copy>(&mut self, from: &[T]) -> T {
        from[self.below(from.len() as u64) as usize]
    }

    /// A place, each as likely as its weight says.
    pub fn weighted(&mut self, weights: &[u64]) -> usize {
        let mut ticket = self.below(weights.iter().sum());
        for (place, &weight) in weights.iter().enumerate() {
            if ticket < weight {
                return place;
            }
            ticket -= weight;
        }
        unreachable!("a ticket is below the sum of the weights")
    }
}
