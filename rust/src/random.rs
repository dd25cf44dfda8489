//! A small random generator (splitmix64): a seed gives the same numbers on every machine.

pub struct Random(u64);

impl Random {
    pub fn new(seed: u64) -> Random {
        Random(seed)
    }

    pub fn bits(&mut self) -> u64 {
        self.0 = self.0.wrapping_add(0x9e37_79b9_7f4a_7c15);
        let mut bits = self.0;
        bits = (bits ^ bits >> 30).wrapping_mul(0xbf58_476d_1ce4_e5b9);
        bits = (bits ^ bits >> 27).wrapping_mul(0x94d0_49bb_1331_11eb);
        bits ^ bits >> 31
    }

    pub fn word(&mut self) -> u32 {
        self.bits() as u32
    }

    /// A number below the bound, or 0 if the bound is 0.
    pub fn below(&mut self, bound: u32) -> u32 {
        ((u64::from(self.word()) * u64::from(bound)) >> 32) as u32
    }

    pub fn between(&mut self, least: u32, most: u32) -> u32 {
        least + ((u64::from(self.word()) * (u64::from(most - least) + 1)) >> 32) as u32
    }

    pub fn percent(&mut self, percent: u32) -> bool {
        self.below(100) < percent
    }

    pub fn pick<T: Copy>(&mut self, choices: &[T]) -> T {
        choices[self.below(choices.len() as u32) as usize]
    }

    /// One of the numbers where counting goes wrong.
    pub fn edge(&mut self) -> u32 {
        self.pick(&[0, 1, 2, 63, 64, 65, 255, 256, 257, 0x7fff_ffff, 0x8000_0000, 4_294_967_294, 4_294_967_295])
    }
}
