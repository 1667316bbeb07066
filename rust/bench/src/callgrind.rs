//! Instruction counts: this program run by callgrind, with two counts of rounds. Their difference leaves out what
//! comes before and after the rounds.

use crate::calls::{Call, Side};
use crate::programs::Case;
use std::process::Command;

/// Instructions that a round takes, verified and reference; none where valgrind is not there.
pub fn of_a_round(case: &Case, call: Call) -> Option<[f64; 2]> {
    // Some thousands of tokens are enough, for every round takes the same instructions.
    let few = (2_048 / case.tokens).max(1);
    let many = 3 * few;
    let mut counts = [0.0; 2];
    for (which, side) in Side::BOTH.into_iter().enumerate() {
        let less = instructions(case, call, side, few)?;
        let more = instructions(case, call, side, many)?;
        counts[which] = (more - less) as f64 / (many - few) as f64;
    }
    Some(counts)
}

fn instructions(case: &Case, call: Call, side: Side, rounds: usize) -> Option<u64> {
    let output = Command::new("valgrind")
        .args(["--tool=callgrind", "--callgrind-out-file=/dev/null"])
        .arg(std::env::current_exe().ok()?)
        .args(["--rounds", &rounds.to_string()])
        .args([case.name, call.name(), side.name()])
        .output()
        .ok()?;
    let said = String::from_utf8_lossy(&output.stderr).into_owned();
    let collected = said.lines().find_map(|line| line.split_once("Collected :"));
    collected?.1.trim().parse().ok()
}
