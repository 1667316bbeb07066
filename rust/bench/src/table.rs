//! The tables of `docs/BENCHMARKS.md`.

use crate::calls::Call;
use crate::programs::{case, Case};
use crate::time::Times;
use crate::{callgrind, calls};
use std::fmt::Write;

/// How often all the cases are gone through, for times of different minutes.
const PASSES: usize = 5;

/// A table's heading, and its rows: words and the name of a case.
type Section = (&'static str, &'static [(&'static str, &'static str)]);

const SECTIONS: [Section; 6] = [
    (
        "Programs",
        &[
            ("straight, 2,048 tokens", "straight"),
            ("branches nested 16 deep, 2,048 tokens", "nested-16"),
            ("1,000 programs of 20 tokens", "small"),
            ("refused at the first of 2,048 tokens", "first"),
            ("refused at the last of 2,048 tokens", "last"),
        ],
    ),
    (
        "Growth with the tokens",
        &[
            ("256", "straight-256"),
            ("512", "straight-512"),
            ("1,024", "straight-1024"),
            ("2,048", "straight"),
        ],
    ),
    (
        "Growth with nesting",
        &[
            ("no branches", "straight"),
            ("4 deep", "nested-4"),
            ("8 deep", "nested-8"),
            ("16 deep", "nested-16"),
        ],
    ),
    (
        "Tokens of every kind, in no order",
        &[
            ("200 vertex programs of up to 200 tokens", "mixed-vertex"),
            (
                "200 fragment programs of up to 200 tokens",
                "mixed-fragment",
            ),
        ],
    ),
    (
        "Many different programs, each judged once in turn",
        &[
            (
                "100 vertex programs of 500 tokens, no branches",
                "many-vertex",
            ),
            (
                "100 fragment programs of 500 tokens, no branches",
                "many-fragment",
            ),
            (
                "100 vertex programs of 500 tokens, with branches",
                "many-vertex-branches",
            ),
            (
                "100 fragment programs of 500 tokens, with branches",
                "many-fragment-branches",
            ),
        ],
    ),
    (
        "Programs of one token, 4,000 different ones in turn",
        &[
            ("accepted", "single"),
            ("refused by 14", "single-14"),
            ("refused by 17", "single-17"),
            ("refused by 21", "single-21"),
        ],
    ),
];

const HEAD: &str = "\
| call | program | ns, verified | ns, reference | ratio | MB/s, verified | MB/s, reference \
| instructions, verified | instructions, reference | ratio |
|---|---|--:|--:|--:|--:|--:|--:|--:|--:|
";

/// A case and what its rounds take, verified and reference.
struct Cost {
    case: Case,
    call: Call,
    times: Times,
    instructions: Option<[f64; 2]>,
}

impl Cost {
    /// The cells of a row: per token, but for the megabytes.
    fn cells(&self) -> String {
        let tokens = self.case.tokens as f64;
        let [ours, theirs] = self.times.medians();
        let (per_token, per_token_theirs) = (ours / tokens, theirs / tokens);
        // Bytes in a nanosecond are thousands of megabytes in a second.
        let rate = |nanoseconds: f64| 1_000.0 * self.case.bytes as f64 / nanoseconds;
        let mut cells = format!(
            "{per_token:.1} | {per_token_theirs:.1} | {:.2} | {:.0} | {:.0} | ",
            self.times.ratio(),
            rate(ours),
            rate(theirs)
        );
        cells += &match self.instructions {
            Some([ours, theirs]) => {
                let ratio = ours / theirs;
                format!(
                    "{:.0} | {:.0} | {ratio:.2} |",
                    ours / tokens,
                    theirs / tokens
                )
            }
            None => "– | – | – |".to_string(),
        };
        cells
    }
}

/// All tables; every case is measured once for each call.
pub fn all() -> String {
    let costs = measured();
    let mut text = format!("Measured on: {}.\n", processor());
    for (heading, rows) in SECTIONS {
        write!(text, "\n## {heading}\n\n{HEAD}").expect("a string");
        for call in Call::ALL {
            for &(words, name) in rows {
                let cells = found(&costs, name, call).cells();
                writeln!(text, "| {} | {words} | {cells}", call.name()).expect("a string");
            }
        }
    }
    text += &growth(&costs);
    text
}

/// What eight times the tokens take, in instructions.
fn growth(costs: &[Cost]) -> String {
    let mut text = String::from("\n## Eight times the tokens\n\n");
    text += "From 256 to 2,048 tokens the verified code takes\n\n";
    for call in Call::ALL {
        let count = |name| found(costs, name, call).instructions;
        if let Some((few, many)) = count("straight-256").zip(count("straight")) {
            let (times, call) = (many[0] / few[0], call.name());
            writeln!(text, "- {times:.2} times the instructions for {call}").expect("a string");
        }
    }
    text
}

fn found<'a>(costs: &'a [Cost], name: &str, call: Call) -> &'a Cost {
    let is_it = |cost: &&Cost| cost.call == call && cost.case.name == name;
    costs.iter().find(is_it).expect("a cost for each case")
}

fn measured() -> Vec<Cost> {
    let mut costs: Vec<Cost> = Vec::new();
    for &(_, name) in SECTIONS.iter().flat_map(|(_, rows)| *rows) {
        if costs.iter().any(|cost| cost.case.name == name) {
            continue;
        }
        for call in Call::ALL {
            let case = case(name).expect("a case of this name");
            calls::agree(&case);
            eprintln!("{name}, {}: counting instructions", call.name());
            costs.push(Cost {
                instructions: callgrind::of_a_round(&case, call),
                times: Times::default(),
                case,
                call,
            });
        }
    }
    for pass in 1..=PASSES {
        eprintln!("times, pass {pass} of {PASSES}");
        for cost in &mut costs {
            cost.times.sample(&cost.case, cost.call);
        }
    }
    costs
}

fn processor() -> String {
    let known = std::fs::read_to_string("/proc/cpuinfo").unwrap_or_default();
    let model = known
        .lines()
        .find_map(|line| line.strip_prefix("model name"));
    model.map_or("an unknown processor".to_string(), |name| {
        name.trim_start_matches([' ', '\t', ':']).to_string()
    })
}

#[cfg(test)]
mod tests {
    use super::*;

    #[test]
    fn both_sides_agree_on_every_case() {
        for &(_, name) in SECTIONS.iter().flat_map(|(_, rows)| *rows) {
            calls::agree(&case(name).expect("a case of this name"));
        }
    }
}
