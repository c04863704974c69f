//! A small generator with a fixed beginning, so that the order is no pattern that a processor learns, and
//! the same every time.

pub struct Draw(u64);

impl Draw {
    pub fn new() -> Draw {
        Draw(0x1234_5678_9abc_def1)
    }

    fn next(&mut self) -> u64 {
        self.0 ^= self.0 << 13;
        self.0 ^= self.0 >> 7;
        self.0 ^= self.0 << 17;
        self.0
    }

    /// A number below `end`; the upper half of a draw, whose bits are better.
    pub fn below(&mut self, end: u32) -> u32 {
        ((self.next() >> 32) * u64::from(end) >> 32) as u32
    }

    pub fn pick<T: Copy>(&mut self, from: &[T]) -> T {
        from[self.below(from.len() as u32) as usize]
    }

    pub fn shuffle<T>(&mut self, what: &mut [T]) {
        for last in (1..what.len()).rev() {
            what.swap(last, self.below(last as u32 + 1) as usize);
        }
    }

    /// The numbers below `end` in any order.
    pub fn shuffled(&mut self, end: u32) -> Vec<u32> {
        let mut numbers: Vec<u32> = (0..end).collect();
        self.shuffle(&mut numbers);
        numbers
    }
}
