//! Measures the proved functions beside the reference: both built for release, on the same inputs, in one run.
//!
//!     bench                                 prints the tables
//!     bench --write FILE                    puts them into a file, between its two marks
//!     bench --time CASE CALL                prints the times of one row; for example
//!     bench --time many-vertex check
//!     bench --rounds N CASE CALL SIDE       only calls, for callgrind and perf; for example
//!     bench --rounds 100 straight check verified

mod callgrind;
mod calls;
mod programs;
mod table;
mod time;

use calls::{Call, Caller, Side};
use programs::Case;
use std::process::ExitCode;
use std::{fs, io};
use time::Times;

const BEGIN: &str = "<!-- tables begin -->\n";
const END: &str = "<!-- tables end -->\n";
const USAGE: &str = "usage: bench [--write FILE | --time CASE CALL | --rounds N CASE CALL SIDE]";

fn main() -> ExitCode {
    let arguments: Vec<String> = std::env::args().skip(1).collect();
    let words: Vec<&str> = arguments.iter().map(String::as_str).collect();
    let done = match words[..] {
        [] => {
            print!("{}", table::all());
            Ok(())
        }
        ["--write", path] => write(path).map_err(|error| format!("{path}: {error}")),
        ["--time", case, call] => only_time(case, call),
        ["--rounds", rounds, case, call, side] => only_call(rounds, case, call, side),
        _ => Err(USAGE.to_string()),
    };
    match done {
        Ok(()) => ExitCode::SUCCESS,
        Err(said) => {
            eprintln!("{said}");
            ExitCode::FAILURE
        }
    }
}

/// Replaces what stands between the marks of a file.
fn write(path: &str) -> io::Result<()> {
    let text = fs::read_to_string(path)?;
    let parts = text.split_once(BEGIN).and_then(|(before, rest)| {
        let (_, after) = rest.split_once(END)?;
        Some((before, after))
    });
    let (before, after) = parts.ok_or(io::Error::other("the marks of the tables are missing"))?;
    let tables = table::all();
    fs::write(path, format!("{before}{BEGIN}\n{tables}\n{END}{after}"))
}

/// The case and the call of two names.
fn named(case: &str, call: &str) -> Result<(Case, Call), String> {
    let case = programs::case(case).ok_or("no such case")?;
    let call = Call::ALL.into_iter().find(|c| c.name() == call);
    Ok((case, call.ok_or("no such call")?))
}

fn only_time(case: &str, call: &str) -> Result<(), String> {
    let (case, call) = named(case, call)?;
    let mut times = Times::default();
    times.sample(&case, call);
    let [ours, theirs] = times.medians().map(|time| time / case.tokens as f64);
    let ratio = times.ratio();
    println!("ns for a token: verified {ours:.1}, reference {theirs:.1}, ratio {ratio:.2}");
    Ok(())
}

fn only_call(rounds: &str, case: &str, call: &str, side: &str) -> Result<(), String> {
    let rounds: usize = rounds.parse().map_err(|_| "no number of rounds")?;
    let (case, call) = named(case, call)?;
    let side = Side::BOTH.into_iter().find(|s| s.name() == side);
    let side = side.ok_or("no such side")?;
    let mut caller = Caller::new();
    for _ in 0..rounds {
        caller.round(&case, call, side);
    }
    Ok(())
}
