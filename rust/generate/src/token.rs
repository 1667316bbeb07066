//! Single tokens and records.

use reference::{
    encode, opcode, Destination, Opcode, Operand, Sampler, Second, Source, Token, OPCODE_SPAN,
    TOKEN_LEN,
};

use crate::rng::Rng;

/// 24 bytes: mostly a token that decodes, or one a bit or two away from it.
pub fn token_bytes(rng: &mut Rng) -> [u8; TOKEN_LEN] {
    let mut bytes = [0; TOKEN_LEN];
    if rng.percent(5) {
        bytes.fill_with(|| rng.byte());
        return bytes;
    }
    let record = fitting_record(rng);
    encode(&record, &mut bytes).expect("a fitting record is encodable");
    match rng.below(100) {
        0..=59 => {}
        60..=89 => flip(rng, &mut bytes, 1),
        90..=97 => flip(rng, &mut bytes, 3),
        _ => bytes[0] = rng.byte(),
    }
    bytes
}

fn flip(rng: &mut Rng, bytes: &mut [u8; TOKEN_LEN], bits: usize) {
    for _ in 0..bits {
        bytes[rng.below(TOKEN_LEN)] ^= 1 << rng.below(8);
    }
}

/// A record: mostly encodable and nameable; the others have a field too wide,
/// an operand of the wrong kind, or an unlisted opcode.
pub fn record(rng: &mut Rng) -> Token {
    let mut token = fitting_record(rng);
    match rng.below(100) {
        0..=64 => {}
        65..=76 => widen(rng, &mut token),
        77..=82 => token.source1 = any_operand(rng),
        83..=88 => token.source2 = any_operand(rng),
        89..=92 => {
            token.destination = match token.destination {
                Some(_) => None,
                None => Some(destination(rng)),
            }
        }
        93..=96 => token.opcode = rng.below(0x30) as u32,
        _ => token.opcode = rng.next_u64() as u32 >> rng.below(32),
    }
    token
}

/// A record whose fields fit and whose operands are of the opcode's kinds.
fn fitting_record(rng: &mut Rng) -> Token {
    let (code, opcode) = any_opcode(rng);
    Token {
        opcode: code,
        destination: opcode.destination.then(|| destination(rng)),
        source1: if opcode.source1 {
            any_source(rng)
        } else {
            Operand::Unused
        },
        source2: match opcode.source2 {
            Second::Unused => Operand::Unused,
            Second::Source => any_source(rng),
            Second::Sampler => Operand::Sampler(sampler(rng)),
        },
    }
}

fn any_opcode(rng: &mut Rng) -> (u32, &'static Opcode) {
    loop {
        let code = rng.below(OPCODE_SPAN as usize) as u32;
        if let Some(opcode) = opcode(code) {
            return (code, opcode);
        }
    }
}

fn any_operand(rng: &mut Rng) -> Operand {
    match rng.below(4) {
        0 => Operand::Unused,
        1 => Operand::Sampler(sampler(rng)),
        _ => any_source(rng),
    }
}

fn any_source(rng: &mut Rng) -> Operand {
    let source = source(rng);
    if rng.percent(40) {
        Operand::Indexed(source)
    } else {
        Operand::Direct(source)
    }
}

/// A register type: mostly one that has a name.
fn register_type(rng: &mut Rng) -> u8 {
    if rng.percent(95) {
        rng.below(7) as u8
    } else {
        rng.below(16) as u8
    }
}

fn number(rng: &mut Rng) -> u16 {
    (rng.next_u64() as u16) >> rng.below(17).min(15)
}

fn destination(rng: &mut Rng) -> Destination {
    Destination {
        number: number(rng),
        mask: rng.below(16) as u8,
        register_type: register_type(rng),
    }
}

fn source(rng: &mut Rng) -> Source {
    Source {
        number: number(rng),
        offset: rng.edgy(256) as u8,
        swizzle: rng.byte(),
        register_type: register_type(rng),
        index_type: register_type(rng),
        component: rng.below(4) as u8,
    }
}

fn sampler(rng: &mut Rng) -> Sampler {
    let mut setting = |lawful: usize| {
        let bound = if rng.percent(97) { lawful } else { 16 };
        rng.below(bound) as u8
    };
    let dimension = setting(2);
    let wrap = setting(2);
    let special = setting(1);
    let filter = setting(2);
    let mipmap = setting(3);
    Sampler {
        number: number(rng),
        bias: rng.edgy(256) as u8 as i8,
        register_type: if rng.percent(97) { 5 } else { rng.byte() & 15 },
        dimension,
        wrap,
        special,
        filter,
        mipmap,
    }
}

/// Makes one field exceed its width, if the field drawn is there.
fn widen(rng: &mut Rng, token: &mut Token) {
    let wide = rng.pick(&[16, 17, 32, 64, 128, 255]);
    match rng.below(3) {
        0 => {
            if let Some(destination) = &mut token.destination {
                let fields = [&mut destination.mask, &mut destination.register_type];
                set_one(rng, fields, wide);
            }
        }
        1 => widen_operand(rng, &mut token.source1, wide),
        _ => widen_operand(rng, &mut token.source2, wide),
    }
}

fn widen_operand(rng: &mut Rng, operand: &mut Operand, wide: u8) {
    match operand {
        Operand::Unused => {}
        Operand::Direct(s) | Operand::Indexed(s) => {
            let narrowest = rng.pick(&[4, 5, 8, wide]);
            match rng.below(3) {
                0 => s.component = narrowest,
                1 => s.register_type = wide,
                _ => s.index_type = wide,
            }
        }
        Operand::Sampler(s) => {
            let fields = [
                &mut s.register_type,
                &mut s.dimension,
                &mut s.wrap,
                &mut s.special,
                &mut s.filter,
                &mut s.mipmap,
            ];
            set_one(rng, fields, wide);
        }
    }
}

fn set_one<const N: usize>(rng: &mut Rng, fields: [&mut u8; N], value: u8) {
    *fields[rng.below(N)] = value;
}
