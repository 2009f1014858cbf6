//! A hash of inputs, answers and buffers, by which runs of different programs are compared: that of a 32-bit
//! machine is that of a 64-bit one.

/// FNV-1a of 64 bits, but a number at a time in place of a byte. Each step is one-to-one, so that no single
/// difference is lost.
#[derive(Clone, Copy)]
pub struct Digest(u64);

impl Default for Digest {
    fn default() -> Digest {
        Digest(0xcbf2_9ce4_8422_2325)
    }
}

impl Digest {
    pub fn number(&mut self, number: impl Into<i64>) {
        self.0 = (self.0 ^ number.into() as u64).wrapping_mul(0x0000_0100_0000_01b3);
    }

    /// A length or a place. Those beyond 32 bits count as one, since the greatest is the machine's.
    pub fn size(&mut self, size: usize) {
        self.number(u32::try_from(size).unwrap_or(u32::MAX));
    }

    pub fn numbers<T: Copy + Into<i64>>(&mut self, numbers: &[T]) {
        self.size(numbers.len());
        numbers.iter().for_each(|&number| self.number(number));
    }

    pub fn sizes(&mut self, sizes: &[usize]) {
        sizes.iter().for_each(|&size| self.size(size));
    }

    /// The hash so far; the next one begins anew.
    pub fn take(&mut self) -> u64 {
        std::mem::take(self).0
    }
}
