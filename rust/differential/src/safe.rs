//! The reference's records and refusals as those of the crate `agal`.

use agal::{Destination, Operand, Refusal, Sampler, Source, Token};

/// A refusal.
pub fn refusal(r: reference::Refusal) -> Refusal {
    Refusal {
        number: r.number,
        token: r.token,
        part: r.part,
    }
}

/// A token's record.
pub fn token(t: reference::Token) -> Token {
    Token {
        opcode: t.opcode,
        destination: t.destination.map(|d| Destination {
            number: d.number,
            mask: d.mask,
            register_type: d.register_type,
        }),
        source1: operand(t.source1),
        source2: operand(t.source2),
    }
}

fn operand(o: reference::Operand) -> Operand {
    match o {
        reference::Operand::Unused => Operand::Unused,
        reference::Operand::Direct(s) => Operand::Direct(source(s)),
        reference::Operand::Indexed(s) => Operand::Indexed(source(s)),
        reference::Operand::Sampler(s) => Operand::Sampler(sampler(s)),
    }
}

fn source(s: reference::Source) -> Source {
    Source {
        number: s.number,
        offset: s.offset,
        swizzle: s.swizzle,
        register_type: s.register_type,
        index_type: s.index_type,
        component: s.component,
    }
}

/// A sampler's record.
pub fn sampler(s: reference::Sampler) -> Sampler {
    Sampler {
        number: s.number,
        bias: s.bias,
        register_type: s.register_type,
        dimension: s.dimension,
        special: s.special,
        wrap: s.wrap,
        mipmap: s.mipmap,
        filter: s.filter,
    }
}
