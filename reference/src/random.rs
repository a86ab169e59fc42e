//! Splitmix64: the same seed gives the same numbers on every machine.

pub struct Random(u64);

impl Random {
    /// Case `index` of a seed has numbers of its own, however many cases are written.
    pub fn for_case(seed: u64, index: u64) -> Random {
        let mut random = Random(seed);
        let scattered = random.draw();
        Random(scattered ^ index.wrapping_mul(0xd1b5_4a32_d192_ed03))
    }

    pub fn draw(&mut self) -> u64 {
        self.0 = self.0.wrapping_add(0x9e37_79b9_7f4a_7c15);
        let mut mixed = self.0;
        mixed = (mixed ^ (mixed >> 30)).wrapping_mul(0xbf58_476d_1ce4_e5b9);
        mixed = (mixed ^ (mixed >> 27)).wrapping_mul(0x94d0_49bb_1331_11eb);
        mixed ^ (mixed >> 31)
    }

    /// Below `limit`, which is above 0; the slight bias of the remainder does not matter for cases.
    pub fn below(&mut self, limit: usize) -> usize {
        (self.draw() % limit as u64) as usize
    }

    /// From `least` to `most`, both included.
    pub fn between(&mut self, least: usize, most: usize) -> usize {
        least + self.below(most - least + 1)
    }

    pub fn percent(&mut self, share: usize) -> bool {
        self.below(100) < share
    }

    pub fn pick<'a, T>(&mut self, choices: &'a [T]) -> &'a T {
        &choices[self.below(choices.len())]
    }
}
