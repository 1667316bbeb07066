//! The verdict on a whole program.

use crate::fields::Token;
use crate::rules::{first_fault, Place};
use crate::tables;
use crate::traffic::{traffic, Traffic};
use crate::ways::unwritten_part;
use crate::Verdict;

/// Judges a program under an edition. Programs with more than some twenty
/// openers take too long.
pub fn judge(program: &[u8], edition: u32) -> Verdict {
    if let Some(number) = whole_fault(program, edition) {
        return Err((number, 0, 0));
    }
    let stage = program[6];
    let mut names: Vec<&str> = Vec::new();
    let mut moves: Vec<Traffic> = Vec::new();
    for (at, bytes) in program[7..].chunks(24).enumerate() {
        let token = Token(bytes);
        let place = Place {
            edition,
            stage,
            token,
        };
        if let Some((number, part)) = first_fault(place) {
            return Err((number, at, part));
        }
        let name = tables::name_of(token.opcode()).unwrap_or_default();
        if misplaced(&names, name) {
            return Err((20, at, 0));
        }
        names.push(name);
        moves.push(traffic(token, name));
        let last = &moves[at];
        let reads = !last.source1.is_empty() || !last.source2.is_empty();
        if let Some(part) = reads.then(|| unwritten_part(&names, &moves)).flatten() {
            return Err((21, at, part));
        }
    }
    match open_branches(&names).last() {
        Some(innermost) => Err((22, innermost.opener, 0)),
        None => Ok((stage, names.len())),
    }
}

/// Faults 1 to 8.
fn whole_fault(program: &[u8], edition: u32) -> Option<u8> {
    if ![1, 2, 3].contains(&edition) {
        return Some(1);
    }
    if program.len() < 7 {
        return Some(2);
    }
    if program[0] != 0xa0 {
        return Some(3);
    }
    if program[1..5] != [1, 0, 0, 0] {
        return Some(4);
    }
    if program[5] != 0xa1 {
        return Some(5);
    }
    if program[6] != 0 && program[6] != 1 {
        return Some(6);
    }
    let after = program.len() - 7;
    if !after.is_multiple_of(24) {
        return Some(7);
    }
    (after / 24 > tables::token_limit(edition)).then_some(8)
}

/// An open branch: its opener and whether it has had its els.
struct Open {
    opener: usize,
    els: bool,
}

/// The branches open after these tokens, outermost first.
fn open_branches(names: &[&str]) -> Vec<Open> {
    let mut open: Vec<Open> = Vec::new();
    for (opener, &name) in names.iter().enumerate() {
        if tables::is_opener(name) {
            open.push(Open { opener, els: false });
        } else if name == "eif" {
            open.pop();
        } else if name == "els" {
            if let Some(innermost) = open.last_mut() {
                innermost.els = true;
            }
        }
    }
    open
}

/// Fault 20 of a token that follows these.
fn misplaced(before: &[&str], name: &str) -> bool {
    let open = open_branches(before);
    if tables::is_opener(name) {
        open.len() >= 16
    } else if name == "els" {
        open.last().is_none_or(|innermost| innermost.els)
    } else if name == "eif" {
        open.is_empty()
    } else {
        false
    }
}
