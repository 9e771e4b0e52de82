//! A small generator (splitmix64), so that runs are the same everywhere.

pub struct Random {
    state: u64,
}

impl Random {
    pub fn new(seed: u64) -> Random {
        Random { state: seed }
    }

    pub fn number(&mut self) -> u64 {
        self.state = self.state.wrapping_add(0x9e37_79b9_7f4a_7c15);
        let mut mixed = self.state;
        mixed = (mixed ^ (mixed >> 30)).wrapping_mul(0xbf58_476d_1ce4_e5b9);
        mixed = (mixed ^ (mixed >> 27)).wrapping_mul(0x94d0_49bb_1331_11eb);
        mixed ^ (mixed >> 31)
    }

    /// From 0 on, and below the limit.
    pub fn below(&mut self, limit: usize) -> usize {
        (self.number() % limit as u64) as usize
    }

    /// A byte, of which every second one means something to a receiver: a flag, an escape, a revision, a small count.
    pub fn line_byte(&mut self) -> u8 {
        const TELLING: [u8; 8] = [0x7e, 0x7e, 0x7d, 0x5e, 0x5d, 0x01, 0x05, 0x00];
        match self.below(2) {
            0 => TELLING[self.below(TELLING.len())],
            _ => self.number() as u8,
        }
    }

    pub fn line_bytes(&mut self, length: usize) -> Vec<u8> {
        (0..length).map(|_| self.line_byte()).collect()
    }
}
