//! A deterministic generator of random numbers (splitmix64).

use std::ops::RangeInclusive;

#[derive(Clone)]
pub struct Random {
    state: u64,
}

/// Words at the edges of signed and unsigned ranges, of sets and of half words.
#[rustfmt::skip]
pub const EDGES: [u32; 32] = [
    0, 1, 2, 3, 7, 30, 31, 32, 33, 0x7f, 0x80, 0xff, 0x7fff, 0x8000, 0xb504, 0xb505, 0xffff,
    0x1_0000, 0x3fff_ffff, 0x5555_5555, 0x7fff_fffe, 0x7fff_ffff, 0x8000_0000, 0x8000_0001,
    0xaaaa_aaaa, 0xffff_0000, 0xffff_8000, 0xffff_ff80, 0xffff_fff9, 0xffff_fffd, 0xffff_fffe,
    0xffff_ffff,
];

impl Random {
    pub fn new(seed: u64) -> Random {
        Random { state: seed }
    }

    /// The generator of one case: any case can be repeated without those before it.
    pub fn of_case(seed: u64, index: u64) -> Random {
        let mut random = Random::new(seed ^ index.wrapping_mul(0xd134_2543_de82_ef95));
        random.draw();
        random
    }

    pub fn draw(&mut self) -> u64 {
        self.state = self.state.wrapping_add(0x9e37_79b9_7f4a_7c15);
        let mut z = self.state;
        z = (z ^ (z >> 30)).wrapping_mul(0xbf58_476d_1ce4_e5b9);
        z = (z ^ (z >> 27)).wrapping_mul(0x94d0_49bb_1331_11eb);
        z ^ (z >> 31)
    }

    /// A number below `bound`, which is above 0.
    pub fn below(&mut self, bound: usize) -> usize {
        ((u128::from(self.draw()) * bound as u128) >> 64) as usize
    }

    pub fn within(&mut self, range: RangeInclusive<usize>) -> usize {
        range.start() + self.below(range.end() - range.start() + 1)
    }

    pub fn percent(&mut self, chance: usize) -> bool {
        self.below(100) < chance
    }

    pub fn pick<T: Copy>(&mut self, items: &[T]) -> T {
        items[self.below(items.len())]
    }

    pub fn byte(&mut self) -> u8 {
        self.draw() as u8
    }

    pub fn bytes(&mut self, count: usize) -> Vec<u8> {
        (0..count).map(|_| self.byte()).collect()
    }

    pub fn bits(&mut self) -> u32 {
        self.draw() as u32
    }

    /// A word that is likely to lie at an edge.
    pub fn word(&mut self) -> u32 {
        match self.below(10) {
            0..=3 => self.below(24) as u32,
            4 | 5 => (self.below(24) as u32).wrapping_neg(),
            6 => self.pick(&EDGES),
            7 => 1 << self.below(32),
            8 => self.below(5000) as u32,
            _ => self.bits(),
        }
    }

    pub fn words(&mut self, count: usize) -> Vec<u32> {
        (0..count).map(|_| self.word()).collect()
    }
}
