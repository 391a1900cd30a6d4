//! Memory that is lent with guard bytes round it, so that a byte written outside is seen.

const GUARD: usize = 32;

#[derive(Clone, PartialEq, Eq)]
pub struct Lent {
    bytes: Vec<u8>,
    len: usize,
}

impl Lent {
    /// `len` bytes, filled with a pattern that no answer has.
    pub fn new(len: usize) -> Lent {
        let bytes = (0..len + 2 * GUARD).map(|i| 0xA5 ^ (i as u8).wrapping_mul(29)).collect();
        Lent { bytes, len }
    }

    pub fn lent(&mut self) -> &mut [u8] {
        &mut self.bytes[GUARD..GUARD + self.len]
    }

    pub fn read(&self) -> &[u8] {
        &self.bytes[GUARD..GUARD + self.len]
    }
}

pub fn words(bytes: &[u8]) -> Vec<u32> {
    bytes.chunks_exact(4).map(|c| u32::from_le_bytes([c[0], c[1], c[2], c[3]])).collect()
}

pub fn bytes_of(words: &[u32]) -> Vec<u8> {
    words.iter().flat_map(|w| w.to_le_bytes()).collect()
}

pub fn bytes_of_floats(floats: &[f32]) -> Vec<u8> {
    floats.iter().flat_map(|f| f.to_le_bytes()).collect()
}
