//! Branches and the ways through them.

use crate::tables::is_opener;
use crate::traffic::{Cell, Traffic, TEMPORARIES};

/// A plain token or a branch; tokens are given by their number.
enum Item {
    Plain(usize),
    Branch(Branch),
}

/// A branch of a program that may be cut short anywhere.
struct Branch {
    /// Which opener of the program this is, counted from 0.
    ordinal: usize,
    opener: usize,
    first: Vec<Item>,
    els: Option<usize>,
    second: Vec<Item>,
    eif: Option<usize>,
}

/// The sources of the last token that read an unwritten temporary on some way
/// of the program that ends with it: part 2 before part 3.
pub fn unwritten_part(names: &[&str], traffic: &[Traffic]) -> Option<u8> {
    let last = names.len() - 1;
    let cut_short = Parser { names, next: 0 }.block(&mut 0);
    let openers = names.iter().filter(|name| is_opener(name)).count();
    let mut in_source2 = false;
    let mut way = Vec::new();
    for choices in 0..1u64 << openers {
        way.clear();
        visit(&cut_short, choices, &mut way);
        if way.last() != Some(&last) {
            continue;
        }
        let mut written = [[false; 4]; TEMPORARIES];
        for &earlier in &way[..way.len() - 1] {
            for &(register, component) in &traffic[earlier].written {
                written[register as usize][component as usize] = true;
            }
        }
        let lacks = |&(register, component): &Cell| !written[register as usize][component as usize];
        let unwritten = |cells: &[Cell]| cells.iter().any(lacks);
        if unwritten(&traffic[last].source1) {
            return Some(2);
        }
        in_source2 |= unwritten(&traffic[last].source2);
    }
    in_source2.then_some(3)
}

/// Lists the tokens that a way visits. Bit `n` of the choices says yes to the
/// opener counted `n`.
fn visit(items: &[Item], choices: u64, way: &mut Vec<usize>) {
    for item in items {
        match item {
            Item::Plain(token) => way.push(*token),
            Item::Branch(branch) => {
                way.push(branch.opener);
                if choices >> branch.ordinal & 1 == 1 {
                    visit(&branch.first, choices, way);
                } else {
                    way.extend(branch.els);
                    visit(&branch.second, choices, way);
                }
                way.extend(branch.eif);
            }
        }
    }
}

/// Sorts the tokens of a program, cut short perhaps, into branches.
struct Parser<'a> {
    names: &'a [&'a str],
    next: usize,
}

impl Parser<'_> {
    /// Items up to the els, eif or end that the block stops at.
    fn block(&mut self, openers: &mut usize) -> Vec<Item> {
        let mut items = Vec::new();
        while let Some(&name) = self.names.get(self.next) {
            if name == "els" || name == "eif" {
                break;
            }
            items.push(if is_opener(name) {
                Item::Branch(self.branch(openers))
            } else {
                Item::Plain(self.take())
            });
        }
        items
    }

    fn branch(&mut self, openers: &mut usize) -> Branch {
        let ordinal = *openers;
        *openers += 1;
        let opener = self.take();
        let first = self.block(openers);
        let els = self.take_if("els");
        let second = match els {
            Some(_) => self.block(openers),
            None => Vec::new(),
        };
        let eif = self.take_if("eif");
        Branch {
            ordinal,
            opener,
            first,
            els,
            second,
            eif,
        }
    }

    fn take_if(&mut self, name: &str) -> Option<usize> {
        (self.names.get(self.next) == Some(&name)).then(|| self.take())
    }

    fn take(&mut self) -> usize {
        self.next += 1;
        self.next - 1
    }
}
