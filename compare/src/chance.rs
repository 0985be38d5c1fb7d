//! Seeded chance: the same seed gives the same inputs (splitmix64).

use std::ops::RangeInclusive;

pub struct Chance {
    state: u64,
}

impl Chance {
    /// The chance of one input among those of a seed.
    pub fn of(seed: u64, input: u64) -> Self {
        let mut chance = Chance { state: seed };
        chance.state = chance.draw() ^ input.wrapping_mul(0xd134_2543_de82_ef95);
        chance
    }

    pub fn draw(&mut self) -> u64 {
        self.state = self.state.wrapping_add(0x9e37_79b9_7f4a_7c15);
        let z = (self.state ^ (self.state >> 30)).wrapping_mul(0xbf58_476d_1ce4_e5b9);
        let z = (z ^ (z >> 27)).wrapping_mul(0x94d0_49bb_1331_11eb);
        z ^ (z >> 31)
    }

    /// 0 up to the limit, which is left out.
    pub fn below(&mut self, limit: usize) -> usize {
        ((u128::from(self.draw()) * limit as u128) >> 64) as usize
    }

    pub fn within(&mut self, range: RangeInclusive<i64>) -> i64 {
        let width = (range.end() - range.start()) as usize + 1;
        range.start() + self.below(width) as i64
    }

    pub fn one_in(&mut self, count: usize) -> bool {
        self.below(count) == 0
    }

    pub fn pick<T: Copy>(&mut self, from: &[T]) -> T {
        from[self.below(from.len())]
    }

    pub fn shuffle<T>(&mut self, items: &mut [T]) {
        for k in (1..items.len()).rev() {
            items.swap(k, self.below(k + 1));
        }
    }
}

#[cfg(test)]
mod tests {
    use super::*;

    #[test]
    fn the_same_seed_gives_the_same_numbers() {
        let draw = |seed, input| {
            let mut chance = Chance::of(seed, input);
            (0..20).map(|_| chance.within(-3..=3)).collect::<Vec<_>>()
        };
        assert_eq!(draw(1, 2), draw(1, 2));
        assert_ne!(draw(1, 2), draw(1, 3));
        assert_ne!(draw(1, 2), draw(2, 2));
        assert!(draw(5, 5).iter().all(|value| (-3..=3).contains(value)));
    }
}
