//! Random numbers that a seed settles, for the driver and the benchmark.

/// The splitmix64 generator.
pub struct Rng(u64);

impl Rng {
    pub fn new(seed: u64) -> Self {
        Rng(seed)
    }

    pub fn word(&mut self) -> u64 {
        self.0 = self.0.wrapping_add(0x9e37_79b9_7f4a_7c15);
        let mixed = (self.0 ^ (self.0 >> 30)).wrapping_mul(0xbf58_476d_1ce4_e5b9);
        let mixed = (mixed ^ (mixed >> 27)).wrapping_mul(0x94d0_49bb_1331_11eb);
        mixed ^ (mixed >> 31)
    }

    /// A number below `limit`, which is not 0.
    pub fn below(&mut self, limit: usize) -> usize {
        (self.word() >> 11) as usize % limit
    }

    /// True once in `turns`.
    pub fn once_in(&mut self, turns: usize) -> bool {
        self.below(turns) == 0
    }

    /// One of the items; nothing where there is none.
    pub fn pick<T: Copy>(&mut self, items: &[T]) -> Option<T> {
        if items.is_empty() {
            return None;
        }
        Some(items[self.below(items.len())])
    }

    /// A number at an edge of some range, or any number.
    pub fn edge(&mut self) -> u16 {
        const EDGES: [u16; 20] =
            [0, 0, 1, 2, 3, 4, 5, 6, 7, 8, 9, 63, 64, 255, 256, 257, 32_768, 65_530, 65_534, 65_535];
        match self.below(EDGES.len() + 2) {
            at if at < EDGES.len() => EDGES[at],
            _ => self.word() as u16,
        }
    }

    pub fn sheet(&mut self) -> [u8; 64] {
        let mut sheet = [0; 64];
        for part in sheet.chunks_exact_mut(8) {
            part.copy_from_slice(&self.word().to_le_bytes());
        }
        sheet
    }
}
