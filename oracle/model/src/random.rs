//! Chance with a fixed seed, so that a difference can be met again: splitmix64.
pub struct Random(pub u64);

impl Random {
    pub fn word(&mut self) -> u64 {
        self.0 = self.0.wrapping_add(0x9e37_79b9_7f4a_7c15);
        let mut mixed = self.0;
        mixed = (mixed ^ (mixed >> 30)).wrapping_mul(0xbf58_476d_1ce4_e5b9);
        mixed = (mixed ^ (mixed >> 27)).wrapping_mul(0x94d0_49bb_1331_11eb);
        mixed ^ (mixed >> 31)
    }

    pub fn below(&mut self, bound: usize) -> usize {
        (self.word() % bound as u64) as usize
    }

    pub fn one_in(&mut self, turns: usize) -> bool {
        self.below(turns) == 0
    }

    pub fn of<T: Copy>(&mut self, pool: &[T]) -> T {
        pool[self.below(pool.len())]
    }

    pub fn text<'a>(&mut self, pool: &'a [String]) -> &'a str {
        &pool[self.below(pool.len())]
    }

    pub fn shuffle<T>(&mut self, all: &mut [T]) {
        for left in (2..=all.len()).rev() {
            all.swap(left - 1, self.below(left));
        }
    }

    /// Mostly a byte that the rules speak of; now and then any other.
    fn byte(&mut self) -> u8 {
        match self.below(32) {
            0 => self.word() as u8,
            1..=9 => self.word() as u8 & 127,
            _ => self.of(b"/-+0159aZ._#[]<> "),
        }
    }

    /// Puts a byte in, takes one out, changes one or cuts the text off, so many times.
    pub fn damage(&mut self, text: &mut Vec<u8>, times: usize) {
        for _ in 0..times {
            let at = self.below(text.len() + 1);
            match self.below(10) {
                0..=2 => text.insert(at, self.byte()),
                3..=5 if at < text.len() => drop(text.remove(at)),
                6..=8 if at < text.len() => text[at] = self.byte(),
                _ => text.truncate(at),
            }
        }
    }
}
