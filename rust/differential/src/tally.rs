//! How often each answer comes up.

use crate::in_full;

/// Counts answers by their number; 0 is an answer that is not refused.
#[derive(Default)]
pub struct Tally {
    counts: [usize; 26],
}

impl Tally {
    /// How often each number has to come up.
    const LEAST: usize = 100;

    /// Counts an answer.
    pub fn count(&mut self, number: u8) {
        self.counts[usize::from(number)] += 1;
    }

    /// How many answers there were.
    pub fn total(&self) -> usize {
        self.counts.iter().sum()
    }

    /// How many were not refused.
    pub fn accepted(&self) -> usize {
        self.counts[0]
    }

    /// Fails unless 0 and each of these numbers came up often enough, and no other ever.
    pub fn is_full(&self, numbers: impl IntoIterator<Item = u8>) {
        println!("{} answers by number: {:?}", self.total(), self.counts);
        let mut others = self.counts;
        for number in numbers.into_iter().chain([0]) {
            let count = std::mem::take(&mut others[usize::from(number)]);
            assert!(
                count >= Self::LEAST || !in_full(),
                "{number} came up {count} times"
            );
        }
        assert_eq!(others, [0; 26], "numbers that no rule gives here");
    }
}
