//! Words for the tests: random, periodic and Fibonacci, always the same from the same seed.

/// Marsaglia's xorshift of 64 bits.
pub struct Random(u64);

impl Random {
    pub fn new(seed: u64) -> Random {
        Random(seed.wrapping_mul(0x9e37_79b9_7f4a_7c15) | 1)
    }

    #[allow(clippy::should_implement_trait)]
    pub fn next(&mut self) -> u64 {
        self.0 ^= self.0 << 13;
        self.0 ^= self.0 >> 7;
        self.0 ^= self.0 << 17;
        self.0.wrapping_mul(0x2545_f491_4f6c_dd1d) >> 16
    }

    /// A number from 0 to `bound` − 1.
    pub fn below(&mut self, bound: usize) -> usize {
        (self.next() % bound as u64) as usize
    }

    /// A number from `low` to `high`, both included.
    pub fn between(&mut self, low: usize, high: usize) -> usize {
        low + self.below(high - low + 1)
    }

    /// A word over the first `letters` letters of the alphabet; 256 are all bytes.
    pub fn word(&mut self, letters: usize, length: usize) -> Vec<u8> {
        (0..length).map(|_| letter(letters, self.below(letters))).collect()
    }
}

/// The letter of this index in an alphabet of so many letters: a, b, c and so on; in an alphabet of 256 the byte itself.
pub fn letter(letters: usize, index: usize) -> u8 {
    if letters == 256 {
        index as u8
    } else {
        b'a' + index as u8
    }
}

/// All words of this length over the first `letters` letters.
pub fn all_words(letters: usize, length: usize) -> Vec<Vec<u8>> {
    (0..letters.pow(length as u32)).map(|number| (0..length).map(|k| letter(letters, number / letters.pow(k as u32) % letters)).collect()).collect()
}

/// The word repeated up to this length.
pub fn periodic(word: &[u8], length: usize) -> Vec<u8> {
    word.iter().copied().cycle().take(length).collect()
}

/// The front of the Fibonacci word abaababa...
pub fn fibonacci(length: usize) -> Vec<u8> {
    let (mut shorter, mut longer) = (b"a".to_vec(), b"ab".to_vec());
    while longer.len() < length {
        let next = [&longer[..], &shorter[..]].concat();
        shorter = longer;
        longer = next;
    }
    longer.truncate(length);
    longer
}
