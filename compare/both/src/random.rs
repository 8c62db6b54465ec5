//! Numbers that look random and are the same in every run.

pub struct Numbers(u64);

impl Default for Numbers {
    fn default() -> Self {
        Self::new()
    }
}

impl Numbers {
    /// From the start.
    #[must_use]
    pub fn new() -> Self {
        Self(0x9E37_79B9_7F4A_7C15)
    }

    fn next(&mut self) -> u64 {
        self.0 ^= self.0 << 13;
        self.0 ^= self.0 >> 7;
        self.0 ^= self.0 << 17;
        self.0
    }

    /// A number below n.
    pub fn below(&mut self, n: usize) -> usize {
        ((self.next() >> 16) % n as u64) as usize
    }

    pub fn byte(&mut self) -> u8 {
        (self.next() >> 24) as u8
    }

    pub fn data_byte(&mut self) -> u8 {
        self.byte() % 128
    }

    /// One of some.
    pub fn one<'a, T>(&mut self, of: &'a [T]) -> &'a T {
        &of[self.below(of.len())]
    }

    /// Below n nearly always, and else any byte.
    pub fn mostly_below(&mut self, n: u8) -> u8 {
        match self.below(12) {
            0 => self.byte(),
            1 => n.wrapping_sub(1),
            2 => n,
            _ => self.byte() % n,
        }
    }

    /// A byte of a stream: data, status bytes and real-time bytes, each often.
    pub fn stream_byte(&mut self) -> u8 {
        match self.below(10) {
            0..=4 => self.data_byte(),
            5 => 0xF0,
            6 => 0xF7,
            7 => 0xF8 + self.byte() % 8,
            8 => 0xF0 + self.byte() % 8,
            _ => 0x80 + self.byte() % 0x70,
        }
    }

    pub fn bytes(&mut self, length: usize) -> Vec<u8> {
        (0..length).map(|_| self.byte()).collect()
    }

    pub fn data(&mut self, length: usize) -> Vec<u8> {
        (0..length).map(|_| self.data_byte()).collect()
    }

    pub fn stream(&mut self, length: usize) -> Vec<u8> {
        (0..length).map(|_| self.stream_byte()).collect()
    }

    /// A few sizes of pieces, not all of them 0.
    pub fn sizes(&mut self, most: usize) -> Vec<usize> {
        let mut sizes: Vec<usize> = (0..self.below(4)).map(|_| self.below(most)).collect();
        sizes.push(1 + self.below(most));
        sizes
    }
}
