//! Builds lawful programs, and programs with one tempting mistake.

use reference::registers::{TEMPORARY, VERTEX};
use reference::{
    encode, opcode, Destination, Flow, Operand, Second, Selectors, Token, OPCODE_SPAN, TOKEN_LEN,
};

use crate::rng::Rng;

/// How the builder keeps track of written temporaries. All but the first are
/// mistakes that a careless checker makes too.
#[derive(Clone, Copy, Debug, PartialEq, Eq)]
pub enum Habit {
    /// As the rules have it.
    Sound,
    /// Unites what the two blocks of a branch write.
    Unite,
    /// Keeps the first block's writes where there is no els.
    KeepFirst,
    /// Marks a token's write before its reads.
    WriteFirst,
}

/// What program to build.
#[derive(Clone, Copy, Debug)]
pub struct Plan {
    /// Edition, 1 to 3.
    pub edition: u32,
    /// Stage, 0 or 1.
    pub stage: u8,
    /// How many tokens at most.
    pub tokens: usize,
    /// How many openers at most.
    pub openers: usize,
    /// How many branches are open at once, at most.
    pub depth: usize,
    /// Percent of tokens that open a branch, where one may be opened.
    pub opening: usize,
    /// Percent of tokens that go on to the next block or close the branch.
    pub closing: usize,
    /// How written temporaries are tracked.
    pub habit: Habit,
}

pub(crate) const XYZW: u8 = 15;
const OPENERS: [u32; 4] = [0x1c, 0x1d, 0x1e, 0x1f];
const ELS: u32 = 0x20;
const EIF: u32 = 0x21;

/// Written components, four bits for each temporary register.
pub(crate) type Written = [u8; 26];

struct Open {
    other_ways: Written,
    has_els: bool,
}

/// A program under construction.
pub(crate) struct Builder<'r> {
    pub(crate) rng: &'r mut Rng,
    pub(crate) plan: Plan,
    opcodes: Vec<u32>,
    pub(crate) written: Written,
    open: Vec<Open>,
    openers: usize,
    bytes: Vec<u8>,
    tokens: usize,
}

/// Builds a program by plan, header included.
pub fn build(rng: &mut Rng, plan: &Plan) -> Vec<u8> {
    let allowed = |code: &u32| {
        opcode(*code).is_some_and(|opcode| {
            opcode.flow == Flow::Plain
                && !(opcode.added && plan.edition == 1)
                && !(opcode.fragment_only && plan.stage == VERTEX)
        })
    };
    let mut builder = Builder {
        rng,
        plan: *plan,
        opcodes: (0..OPCODE_SPAN).filter(allowed).collect(),
        written: [0; 26],
        open: Vec::new(),
        openers: 0,
        bytes: vec![0xa0, 1, 0, 0, 0, 0xa1, plan.stage],
        tokens: 0,
    };
    builder.run();
    builder.bytes
}

impl Builder<'_> {
    fn run(&mut self) {
        if self.plan.tokens > 8 && self.rng.percent(35) {
            self.fill_some_temporaries();
        }
        while self.tokens < self.plan.tokens {
            self.step();
        }
    }

    /// One more token. There is always room left to close what is open.
    fn step(&mut self) {
        let left = self.plan.tokens - self.tokens;
        let open = self.open.len();
        if left <= open {
            return self.close();
        }
        let may_open = self.plan.edition > 1
            && left >= open + 2
            && open < self.plan.depth
            && self.openers < self.plan.openers;
        if may_open && self.rng.percent(self.plan.opening) {
            return self.open();
        }
        if open > 0 && self.rng.percent(self.plan.closing) {
            if !self.open[open - 1].has_els && self.rng.percent(60) {
                return self.switch();
            }
            return self.close();
        }
        let code = self.rng.pick(&self.opcodes);
        self.plain(code);
    }

    /// Writes a run of registers, so that a matrix can stand in temporaries.
    fn fill_some_temporaries(&mut self) {
        let run = self.rng.between(3, 5);
        let first = self.rng.edgy(self.count(TEMPORARY) - run + 1);
        let mask = self.rng.pick(&[XYZW, XYZW, 7]);
        for number in first..first + run {
            let destination = Destination {
                number: number as u16,
                mask,
                register_type: TEMPORARY,
            };
            let source = Operand::Direct(self.input(1));
            self.push(&Token {
                opcode: 0,
                destination: Some(destination),
                source1: source,
                source2: Operand::Unused,
            });
            self.written[number] |= mask;
        }
    }

    fn open(&mut self) {
        let token = Token {
            opcode: self.rng.pick(&OPENERS),
            destination: None,
            source1: self.source(XYZW),
            source2: self.source(XYZW),
        };
        self.push(&token);
        self.openers += 1;
        self.open.push(Open {
            other_ways: self.written,
            has_els: false,
        });
    }

    fn switch(&mut self) {
        self.bare(ELS);
        if let Some(branch) = self.open.last_mut() {
            branch.has_els = true;
            std::mem::swap(&mut branch.other_ways, &mut self.written);
        }
    }

    fn close(&mut self) {
        self.bare(EIF);
        let Some(branch) = self.open.pop() else {
            return;
        };
        let keeps_all = match self.plan.habit {
            Habit::Unite => true,
            Habit::KeepFirst => !branch.has_els,
            Habit::Sound | Habit::WriteFirst => false,
        };
        for (written, other) in self.written.iter_mut().zip(branch.other_ways) {
            *written = if keeps_all {
                *written | other
            } else {
                *written & other
            };
        }
    }

    fn bare(&mut self, code: u32) {
        self.push(&Token {
            opcode: code,
            destination: None,
            source1: Operand::Unused,
            source2: Operand::Unused,
        });
    }

    fn plain(&mut self, code: u32) {
        let Some(opcode) = opcode(code) else {
            return;
        };
        let destination = opcode.destination.then(|| self.destination(opcode));
        if self.plan.habit == Habit::WriteFirst {
            self.mark(destination);
        }
        let sampler = self.sampler();
        let selectors = match opcode.selectors {
            Selectors::Mask => destination.map_or(0, |destination| destination.mask),
            Selectors::Fixed(selectors) => selectors,
            Selectors::Coordinates => [0b0011, 0b0111][usize::from(sampler.dimension & 1)],
        };
        let source1 = if opcode.scalar {
            self.scalar()
        } else {
            self.source(selectors)
        };
        let source2 = match opcode.source2 {
            Second::Unused => Operand::Unused,
            Second::Sampler => Operand::Sampler(sampler),
            Second::Source if opcode.is_matrix() => self.matrix(opcode),
            Second::Source => self.source(selectors),
        };
        self.push(&Token {
            opcode: code,
            destination,
            source1,
            source2,
        });
        self.mark(destination);
    }

    fn push(&mut self, token: &Token) {
        let mut bytes = [0; TOKEN_LEN];
        encode(token, &mut bytes).expect("a built token is encodable");
        self.bytes.extend_from_slice(&bytes);
        self.tokens += 1;
    }

    fn mark(&mut self, destination: Option<Destination>) {
        if let Some(destination) = destination {
            if destination.register_type == TEMPORARY {
                self.written[usize::from(destination.number)] |= destination.mask;
            }
        }
    }
}
