//! The forty opcodes: what fields each has and what it reads.

use crate::profile::Profile;

/// What stands in the last field of a token.
#[derive(Clone, Copy, Debug, PartialEq, Eq)]
pub enum Second {
    /// Nothing; the field is 0.
    Unused,
    /// An ordinary source.
    Source,
    /// A sampler.
    Sampler,
}

/// What an opcode does to the nesting of branches.
#[derive(Clone, Copy, Debug, PartialEq, Eq)]
pub enum Flow {
    /// Nothing.
    Plain,
    /// Opens a branch.
    Opener,
    /// Starts the second block.
    Els,
    /// Closes a branch.
    Eif,
}

/// Which selectors of an ordinary source an opcode reads by.
#[derive(Clone, Copy, Debug, PartialEq, Eq)]
pub enum Selectors {
    /// Those of the destination's mask.
    Mask,
    /// Always these, one bit each, x lowest.
    Fixed(u8),
    /// Two for a 2D texture, three for a cube.
    Coordinates,
}

/// What is known of one opcode.
#[derive(Clone, Copy, Debug)]
pub struct Opcode {
    /// Its name, always three letters.
    pub name: &'static str,
    /// Absent in edition 1.
    pub added: bool,
    /// Allowed in fragment programs alone.
    pub fragment_only: bool,
    /// Has a destination.
    pub destination: bool,
    /// The destination has no w.
    pub narrow: bool,
    /// Has source 1.
    pub source1: bool,
    /// All four selectors of source 1 must be alike.
    pub scalar: bool,
    /// What source 2 is.
    pub source2: Second,
    /// Registers that source 2 spans.
    pub rows: u8,
    /// What a matrix in source 2 reads: four bits for each row, x lowest.
    /// 0 where source 2 is no matrix.
    pub matrix: u16,
    /// Selectors that the sources are read by.
    pub selectors: Selectors,
    /// What it does to the nesting.
    pub flow: Flow,
}

/// Every listed opcode is below this.
pub const OPCODE_SPAN: u32 = 0x2e;

/// What is known of an opcode, if it is listed.
#[inline]
pub fn opcode(code: u32) -> Option<&'static Opcode> {
    listed(code).map(|(opcode, _)| opcode)
}

/// A listed opcode together with its profile.
#[inline]
pub(crate) fn listed(code: u32) -> Option<&'static (Opcode, Profile)> {
    TABLE.get(code as usize)?.as_ref()
}

impl Opcode {
    /// Whether source 2 is a matrix.
    #[inline]
    pub const fn is_matrix(&self) -> bool {
        self.matrix != 0
    }

    const fn added(mut self) -> Self {
        self.added = true;
        self
    }

    const fn fragment_only(mut self) -> Self {
        self.fragment_only = true;
        self
    }

    const fn narrow(mut self) -> Self {
        self.narrow = true;
        self
    }

    const fn reading(mut self, selectors: u8) -> Self {
        self.selectors = Selectors::Fixed(selectors);
        self
    }

    const fn flow(mut self, flow: Flow) -> Self {
        self.flow = flow;
        self
    }
}

const X: u8 = 0b0001;
const XYZ: u8 = 0b0111;
const XYZW: u8 = 0b1111;

/// An opcode without any field.
const fn bare(name: &'static str) -> Opcode {
    Opcode {
        name,
        added: false,
        fragment_only: false,
        destination: false,
        narrow: false,
        source1: false,
        scalar: false,
        source2: Second::Unused,
        rows: 1,
        matrix: 0,
        selectors: Selectors::Mask,
        flow: Flow::Plain,
    }
}

/// A destination and one source.
const fn one(name: &'static str) -> Opcode {
    Opcode {
        destination: true,
        source1: true,
        ..bare(name)
    }
}

/// A destination and two sources.
const fn two(name: &'static str) -> Opcode {
    Opcode {
        source2: Second::Source,
        ..one(name)
    }
}

/// A vector in source 1 and a matrix in source 2.
const fn matrix(name: &'static str, selectors: u8, rows: u8, reads: u16) -> Opcode {
    Opcode {
        rows,
        matrix: reads,
        ..two(name).reading(selectors)
    }
}

/// Two sources to compare, no destination.
const fn opener(name: &'static str) -> Opcode {
    Opcode {
        destination: false,
        flow: Flow::Opener,
        ..two(name).reading(XYZW).added()
    }
}

const fn kil() -> Opcode {
    Opcode {
        destination: false,
        scalar: true,
        ..one("kil").reading(X).fragment_only()
    }
}

const fn tex() -> Opcode {
    Opcode {
        source2: Second::Sampler,
        selectors: Selectors::Coordinates,
        ..one("tex").fragment_only()
    }
}

static TABLE: [Option<(Opcode, Profile)>; OPCODE_SPAN as usize] = {
    let mut table = [None; OPCODE_SPAN as usize];
    let mut code = 0;
    while code < table.len() {
        if let Some(opcode) = OPCODES[code] {
            table[code] = Some((opcode, Profile::of(&opcode)));
        }
        code += 1;
    }
    table
};

const OPCODES: [Option<Opcode>; OPCODE_SPAN as usize] = {
    let mut table = [None; OPCODE_SPAN as usize];
    table[0x00] = Some(one("mov"));
    table[0x01] = Some(two("add"));
    table[0x02] = Some(two("sub"));
    table[0x03] = Some(two("mul"));
    table[0x04] = Some(two("div"));
    table[0x05] = Some(one("rcp"));
    table[0x06] = Some(two("min"));
    table[0x07] = Some(two("max"));
    table[0x08] = Some(one("frc"));
    table[0x09] = Some(one("sqt"));
    table[0x0a] = Some(one("rsq"));
    table[0x0b] = Some(two("pow"));
    table[0x0c] = Some(one("log"));
    table[0x0d] = Some(one("exp"));
    table[0x0e] = Some(one("nrm").reading(XYZ).narrow());
    table[0x0f] = Some(one("sin"));
    table[0x10] = Some(one("cos"));
    table[0x11] = Some(two("crs").reading(XYZ).narrow());
    table[0x12] = Some(two("dp3").reading(XYZ));
    table[0x13] = Some(two("dp4").reading(XYZW));
    table[0x14] = Some(one("abs"));
    table[0x15] = Some(one("neg"));
    table[0x16] = Some(one("sat"));
    table[0x17] = Some(matrix("m33", XYZ, 3, 0x0777).narrow());
    table[0x18] = Some(matrix("m44", XYZW, 4, 0xffff));
    table[0x19] = Some(matrix("m34", XYZW, 3, 0x0fff).narrow());
    table[0x1a] = Some(one("ddx").added());
    table[0x1b] = Some(one("ddy").added());
    table[0x1c] = Some(opener("ife"));
    table[0x1d] = Some(opener("ine"));
    table[0x1e] = Some(opener("ifg"));
    table[0x1f] = Some(opener("ifl"));
    table[0x20] = Some(bare("els").flow(Flow::Els).added());
    table[0x21] = Some(bare("eif").flow(Flow::Eif).added());
    table[0x27] = Some(kil());
    table[0x28] = Some(tex());
    table[0x29] = Some(two("sge"));
    table[0x2a] = Some(two("slt"));
    table[0x2c] = Some(two("seq"));
    table[0x2d] = Some(two("sne"));
    table
};
