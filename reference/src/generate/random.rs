//! A small generator of numbers (splitmix64), so that the same seed gives the same script everywhere.

/// The state; each number moves it on.
pub struct Random(u64);

impl Random {
    #[must_use]
    pub fn new(seed: u64) -> Self {
        Random(seed)
    }

    pub fn next(&mut self) -> u64 {
        self.0 = self.0.wrapping_add(0x9e37_79b9_7f4a_7c15);
        let mixed = (self.0 ^ (self.0 >> 30)).wrapping_mul(0xbf58_476d_1ce4_e5b9);
        let mixed = (mixed ^ (mixed >> 27)).wrapping_mul(0x94d0_49bb_1331_11eb);
        mixed ^ (mixed >> 31)
    }

    /// A number below the bound, which is at least 1. A slight bias does no harm here.
    pub fn below(&mut self, bound: usize) -> usize {
        (self.next() % bound as u64) as usize
    }

    pub fn byte(&mut self) -> u8 {
        self.next() as u8
    }

    /// Any bytes.
    pub fn bytes(&mut self, len: usize) -> Vec<u8> {
        (0..len).map(|_| self.byte()).collect()
    }

    /// One of the bytes given, which are some.
    pub fn one_of(&mut self, bytes: &[u8]) -> u8 {
        bytes[self.below(bytes.len())]
    }

    /// Lower-case letters and digits, which print as themselves.
    pub fn letters(&mut self, len: usize) -> Vec<u8> {
        (0..len).map(|_| self.one_of(b"abcdefghijklmnopqrstuvwxyz0123456789")).collect()
    }

    /// Bytes that may stand in an argument.
    pub fn argument(&mut self, len: usize) -> Vec<u8> {
        (0..len).map(|_| 33 + self.below(94) as u8).collect()
    }
}

#[cfg(test)]
mod tests {
    use super::Random;

    #[test]
    fn published_numbers_of_splitmix64() {
        let mut random = Random::new(1_234_567);
        assert_eq!(random.next(), 6_457_827_717_110_365_317);
        assert_eq!(random.next(), 3_203_168_211_198_807_973);
    }

    #[test]
    fn arguments_have_argument_bytes() {
        let argument = Random::new(1).argument(1_000);
        assert!(argument.iter().all(|byte| (33..=126).contains(byte)));
    }
}
