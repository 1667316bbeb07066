//! Lawful destinations, sources and samplers for the builder.

use reference::registers::{self, ATTRIBUTE, CONSTANT, SAMPLER, TEMPORARY, VERTEX};
use reference::{Destination, Opcode, Operand, Sampler, Source};

use crate::build::{Builder, XYZW};

const IDENTITY: u8 = 0xe4;

impl Builder<'_> {
    pub(crate) fn count(&self, register_type: u8) -> usize {
        registers::count(register_type, self.plan.edition, self.plan.stage).into()
    }

    pub(crate) fn destination(&mut self, opcode: &Opcode) -> Destination {
        let mut register_type = TEMPORARY;
        if self.rng.percent(30) {
            let stage = self.plan.stage;
            let offers = |t: &u8| registers::is_writable(*t, stage) && self.count(*t) > 0;
            let types: Vec<u8> = (0..7).filter(offers).collect();
            register_type = self.rng.pick(&types);
        }
        let widest = if opcode.narrow { 7 } else { XYZW };
        let mask = if self.rng.percent(40) {
            widest
        } else {
            self.rng.between(1, widest.into()) as u8
        };
        Destination {
            number: self.rng.edgy(self.count(register_type)) as u16,
            mask,
            register_type,
        }
    }

    /// A lawful source that is read by these selectors.
    pub(crate) fn source(&mut self, selectors: u8) -> Operand {
        if self.plan.stage == VERTEX && self.rng.percent(15) {
            return Operand::Indexed(self.indexed(1));
        }
        let temporary = self.written_register();
        let source = match temporary {
            Some(number) if self.rng.percent(50) => {
                let mut source = self.direct(TEMPORARY, number);
                source.swizzle = self.written_swizzle(self.written[number], selectors);
                source
            }
            _ => self.input(1),
        };
        Operand::Direct(source)
    }

    /// A lawful source of `kil`, its four selectors alike.
    pub(crate) fn scalar(&mut self) -> Operand {
        let temporary = self.written_register();
        let (mut source, component) = match temporary {
            Some(number) if self.rng.percent(60) => {
                let component = self.written_component(self.written[number]);
                (self.direct(TEMPORARY, number), component)
            }
            _ => (self.input(1), self.rng.below(4) as u8),
        };
        source.swizzle = component * 0x55;
        Operand::Direct(source)
    }

    /// A lawful matrix: indexed, in temporaries, or in inputs.
    pub(crate) fn matrix(&mut self, opcode: &Opcode) -> Operand {
        let rows = usize::from(opcode.rows);
        if self.plan.stage == VERTEX && self.rng.percent(20) {
            let mut source = self.indexed(rows);
            source.swizzle = IDENTITY;
            return Operand::Indexed(source);
        }
        let needed = opcode.matrix as u8 & XYZW;
        let holds = |written: &[u8]| written.iter().all(|w| w & needed == needed);
        let fits = |number: &usize| holds(&self.written[*number..number + rows]);
        let last = self.count(TEMPORARY) - rows;
        let runs: Vec<usize> = (0..=last).filter(fits).collect();
        let mut source = if !runs.is_empty() && self.rng.percent(60) {
            let number = self.rng.pick(&runs);
            self.direct(TEMPORARY, number)
        } else {
            self.input(rows)
        };
        source.swizzle = IDENTITY;
        Operand::Direct(source)
    }

    /// So many registers of attributes, constants or varyings.
    pub(crate) fn input(&mut self, rows: usize) -> Source {
        let stage = self.plan.stage;
        let offers = |t: &u8| *t != TEMPORARY && registers::is_readable(*t, stage);
        let types: Vec<u8> = (0..7).filter(offers).collect();
        let register_type = self.rng.pick(&types);
        let number = self.rng.edgy(self.count(register_type) - rows + 1);
        self.direct(register_type, number)
    }

    /// A direct source with any swizzle and, at times, meaningless I and Q.
    fn direct(&mut self, register_type: u8, number: usize) -> Source {
        let meaningless = self.rng.percent(20);
        Source {
            number: number as u16,
            offset: 0,
            swizzle: self.swizzle(),
            register_type,
            index_type: if meaningless { self.rng.byte() & 15 } else { 0 },
            component: if meaningless { self.rng.byte() & 3 } else { 0 },
        }
    }

    fn indexed(&mut self, rows: usize) -> Source {
        let mut index_type = self.rng.below(3) as u8;
        let mut component = self.rng.below(4) as u8;
        let mut number = self.rng.edgy(self.count(index_type));
        if index_type == TEMPORARY {
            match self.written_register() {
                Some(register) => {
                    number = register;
                    component = self.written_component(self.written[register]);
                }
                None => {
                    index_type = ATTRIBUTE;
                    number = self.rng.edgy(self.count(ATTRIBUTE));
                }
            }
        }
        let offsets = (self.count(CONSTANT) - rows + 1).min(256);
        Source {
            number: number as u16,
            offset: self.rng.edgy(offsets) as u8,
            swizzle: self.swizzle(),
            register_type: CONSTANT,
            index_type,
            component,
        }
    }

    pub(crate) fn sampler(&mut self) -> Sampler {
        Sampler {
            number: self.rng.edgy(self.count(SAMPLER)) as u16,
            bias: self.rng.edgy(256) as u8 as i8,
            register_type: SAMPLER,
            dimension: self.rng.below(2) as u8,
            wrap: self.rng.below(2) as u8,
            special: 0,
            filter: self.rng.below(2) as u8,
            mipmap: self.rng.below(3) as u8,
        }
    }

    fn swizzle(&mut self) -> u8 {
        if self.rng.percent(40) {
            IDENTITY
        } else {
            self.rng.byte()
        }
    }

    /// A temporary register of which something is written.
    fn written_register(&mut self) -> Option<usize> {
        let count = self.count(TEMPORARY);
        let start = self.rng.below(count);
        let mut numbers = (start..count).chain(0..start);
        numbers.find(|&number| self.written[number] != 0)
    }

    fn written_component(&mut self, written: u8) -> u8 {
        let start = self.rng.below(4) as u8;
        let mut components = (start..4).chain(0..start);
        components
            .find(|component| written >> component & 1 == 1)
            .unwrap_or(0)
    }

    /// Selectors that are read name written components, the others any.
    fn written_swizzle(&mut self, written: u8, selectors: u8) -> u8 {
        if written == XYZW {
            return self.swizzle();
        }
        (0..4).fold(0, |swizzle, selector| {
            let component = if selectors >> selector & 1 == 1 {
                self.written_component(written)
            } else {
                self.rng.below(4) as u8
            };
            swizzle | component << (2 * selector)
        })
    }
}
