//! Buffers that are lent to the proved functions.

/// Bytes after the lent part, which no function may touch either.
const MARGIN: usize = 8;

/// A buffer full of a pattern.
pub struct Lent {
    bytes: Vec<u8>,
    length: usize,
    first: u8,
}

impl Lent {
    /// A buffer of so many bytes; the pattern begins with `first`.
    pub fn new(length: usize, first: u8) -> Self {
        let bytes = (0..length + MARGIN).map(|at| pattern(at, first));
        Lent {
            bytes: bytes.collect(),
            length,
            first,
        }
    }

    /// The part to lend.
    pub fn part(&mut self) -> &mut [u8] {
        &mut self.bytes[..self.length]
    }

    /// Whether these bytes stand first, and the pattern in every byte after them.
    pub fn holds(&self, written: &[u8]) -> bool {
        let (front, after) = self.bytes.split_at(written.len());
        let untouched = |(at, byte): (usize, &u8)| *byte == pattern(at, self.first);
        front == written && (written.len()..).zip(after).all(untouched)
    }
}

fn pattern(at: usize, first: u8) -> u8 {
    (at as u8).wrapping_mul(37).wrapping_add(first)
}

#[cfg(test)]
mod tests {
    use super::*;

    #[test]
    fn every_byte_counts() {
        for place in 0..10 + MARGIN {
            let mut lent = Lent::new(10, 7);
            lent.part()[..4].copy_from_slice(&[0; 4]);
            assert!(lent.holds(&[0; 4]) && !lent.holds(&[0; 3]) && !lent.holds(&[]));
            lent.bytes[place] ^= 1;
            assert!(!lent.holds(&[0; 4]), "{place}");
        }
    }
}
