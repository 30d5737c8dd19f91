//! A row of hints with addresses all over a section, and its payload.

use crate::rng::Rng;

/// A row and the bytes that spell it.
pub struct Payload {
    pub row: Vec<u64>,
    pub bytes: Vec<u8>,
}

impl Payload {
    /// A row of `n` values: hints of two and three addresses, random ones below 2^32.
    pub fn new(n: usize) -> Self {
        let mut rng = Rng::new("payload", n as u64);
        let (mut row, mut bytes) = (Vec::with_capacity(n), Vec::new());
        while row.len() < n {
            let left = n - row.len() - 2;
            // The last hint has what is left.
            let count = if left < 6 { left } else { rng.pick(&[2, 3]) };
            row.extend([1 + rng.below(8), count as u64]);
            row.extend((0..count).map(|_| rng.below(1 << 32)));
        }
        oracle::encode_ulebs(&row, &mut bytes);
        Self { row, bytes }
    }
}
