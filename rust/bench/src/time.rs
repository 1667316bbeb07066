//! Times: samples of the two sides in turn, and their medians.

use crate::calls::{Call, Caller, Side};
use crate::programs::Case;
use std::time::{Duration, Instant};

const SAMPLES: usize = 21;
/// Short enough that most samples are over before another process gets the core.
const SAMPLE: Duration = Duration::from_millis(1);

/// Nanoseconds that a round takes, verified and reference, and how many times the second the first is.
#[derive(Default)]
pub struct Times {
    sides: [Vec<f64>; 2],
    ratios: Vec<f64>,
}

impl Times {
    /// Takes more samples.
    pub fn sample(&mut self, case: &Case, call: Call) {
        let mut caller = Caller::new();
        let rounds = Side::BOTH.map(|side| rounds_of_a_sample(&mut caller, case, call, side));
        for _ in 0..SAMPLES {
            let mut pair = [0.0; 2];
            for (which, side) in Side::BOTH.into_iter().enumerate() {
                let time = time(&mut caller, case, call, side, rounds[which]);
                pair[which] = time.as_nanos() as f64 / rounds[which] as f64;
                self.sides[which].push(pair[which]);
            }
            self.ratios.push(pair[0] / pair[1]);
        }
    }

    pub fn medians(&self) -> [f64; 2] {
        [median(&self.sides[0]), median(&self.sides[1])]
    }

    /// The median over pairs of samples, one taken right after the other, so that a core which slows down for a while
    /// slows both.
    pub fn ratio(&self) -> f64 {
        median(&self.ratios)
    }
}

/// How many rounds fill a sample. Their first ones also warm the caches up.
fn rounds_of_a_sample(caller: &mut Caller, case: &Case, call: Call, side: Side) -> usize {
    let mut rounds = 1;
    while time(caller, case, call, side, rounds) < SAMPLE / 2 {
        rounds *= 2;
    }
    rounds
}

fn time(caller: &mut Caller, case: &Case, call: Call, side: Side, rounds: usize) -> Duration {
    let start = Instant::now();
    for _ in 0..rounds {
        caller.round(case, call, side);
    }
    start.elapsed()
}

fn median(samples: &[f64]) -> f64 {
    let mut samples = samples.to_vec();
    samples.sort_by(f64::total_cmp);
    samples[samples.len() / 2]
}
