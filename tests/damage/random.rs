//! Numbers that look random and are the same for the same seed (splitmix64).

pub struct Random(u64);

fn mixed(mut word: u64) -> u64 {
    word = (word ^ word >> 30).wrapping_mul(0xbf58_476d_1ce4_e5b9);
    word = (word ^ word >> 27).wrapping_mul(0x94d0_49bb_1331_11eb);
    word ^ word >> 31
}

impl Random {
    /// Stream `stream` of a seed; each case has its own, so that it can be run alone.
    pub fn new(seed: u64, stream: u64) -> Random {
        Random(mixed(seed ^ mixed(stream)))
    }

    pub fn next(&mut self) -> u64 {
        self.0 = self.0.wrapping_add(0x9e37_79b9_7f4a_7c15);
        mixed(self.0)
    }

    /// Under `n`, which is over 0.
    pub fn below(&mut self, n: usize) -> usize {
        (self.next() >> 1) as usize % n
    }

    pub fn between(&mut self, first: usize, last: usize) -> usize {
        first + self.below(last - first + 1)
    }

    /// True once in `n` times.
    pub fn one_in(&mut self, n: usize) -> bool {
        self.below(n) == 0
    }

    pub fn pick<T: Copy>(&mut self, of: &[T]) -> T {
        of[self.below(of.len())]
    }

    /// A byte, often one that means something in a message.
    pub fn byte(&mut self) -> u8 {
        match self.below(4) {
            0 => self.below(4) as u8,
            1 => self.pick(&[255, 128, 127, 131, 68, 69, 70, 97, 104, 106, 107, 108, 109, 116, 119]),
            _ => self.next() as u8,
        }
    }

    pub fn bytes(&mut self, count: usize) -> Vec<u8> {
        (0..count).map(|_| self.byte()).collect()
    }
}
