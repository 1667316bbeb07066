//! The programs that are measured: edition 3, and for fragments where nothing else is said.

use generate::{build, Habit, Plan, Rng};
use reference::{
    check, encode, Destination, Operand, Sampler, Source, Token, HEADER_LEN, TOKEN_LEN,
};

/// Temporary registers that a program writes first and then reads.
const TEMPORARIES: usize = 4;
const TEMPORARY: u8 = 2;
const CONSTANT: u8 = 1;
const VARYING: u8 = 4;
const XYZW: u8 = 15;
const IDENTITY: u8 = 0xe4;
/// No opcode has this number.
const UNLISTED: u8 = 0x2b;
/// So many openers that they are never the limit.
const ANY: usize = usize::MAX;
/// How many different programs of one token a case has.
const SINGLE: usize = 4_000;

/// What is measured together: programs, each as an input of the listing, and how much of them is judged.
pub struct Case {
    /// Its name on the command line.
    pub name: &'static str,
    /// An edition digit and a program's bytes, each.
    pub inputs: Vec<Vec<u8>>,
    /// Tokens up to the one that is refused, that one included, or all.
    pub tokens: usize,
    /// The bytes of headers and of those tokens.
    pub bytes: usize,
}

/// The case of a name.
pub fn case(name: &str) -> Option<Case> {
    Some(match name {
        "straight" => whole("straight", vec![program(1, 2_048, 0)]),
        "straight-1024" => whole("straight-1024", vec![program(1, 1_024, 0)]),
        "straight-512" => whole("straight-512", vec![program(1, 512, 0)]),
        "straight-256" => whole("straight-256", vec![program(1, 256, 0)]),
        "nested-4" => whole("nested-4", vec![program(1, 2_048, 4)]),
        "nested-8" => whole("nested-8", vec![program(1, 2_048, 8)]),
        "nested-16" => whole("nested-16", vec![program(1, 2_048, 16)]),
        "small" => whole("small", (0..1_000).map(|s| program(s, 20, 0)).collect()),
        "mixed-vertex" => whole("mixed-vertex", mixed(200, 200, 0, ANY)),
        "mixed-fragment" => whole("mixed-fragment", mixed(200, 200, 1, ANY)),
        "many-vertex" => whole("many-vertex", mixed(100, 500, 0, 0)),
        "many-fragment" => whole("many-fragment", mixed(100, 500, 1, 0)),
        "many-vertex-branches" => whole("many-vertex-branches", mixed(100, 500, 0, ANY)),
        "many-fragment-branches" => whole("many-fragment-branches", mixed(100, 500, 1, ANY)),
        "single" => whole("single", single()),
        "single-14" => whole("single-14", single_refused(14, spoil_destination)),
        "single-17" => whole("single-17", single_refused(17, spoil_source)),
        "single-21" => whole("single-21", single_refused(21, read_temporary)),
        "first" => refused("first", 0),
        "last" => refused("last", 2_047),
        _ => return None,
    })
}

fn whole(name: &'static str, inputs: Vec<Vec<u8>>) -> Case {
    let bytes: usize = inputs.iter().map(|input| input.len() - 1).sum();
    Case {
        name,
        tokens: (bytes - HEADER_LEN * inputs.len()) / TOKEN_LEN,
        bytes,
        inputs,
    }
}

/// Lawful programs of the tests, of one stage.
fn mixed(programs: u64, tokens: usize, stage: u8, openers: usize) -> Vec<Vec<u8>> {
    let seeded = |seed| lawful(&mut Rng::new(seed), stage, tokens, openers);
    (0..programs).map(seeded).collect()
}

/// A lawful program of the tests: any token, on any registers, may follow another.
fn lawful(rng: &mut Rng, stage: u8, tokens: usize, openers: usize) -> Vec<u8> {
    let plan = Plan {
        edition: 3,
        stage,
        tokens,
        openers,
        depth: 16,
        opening: 15,
        closing: 20,
        habit: Habit::Sound,
    };
    let mut input = vec![b'3'];
    input.extend(build(rng, &plan));
    input
}

/// Programs of one token, of either stage.
fn single() -> Vec<Vec<u8>> {
    let mut rng = Rng::new(1);
    (0..SINGLE).map(|_| one_token(&mut rng)).collect()
}

fn one_token(rng: &mut Rng) -> Vec<u8> {
    let stage = rng.below(2) as u8;
    lawful(rng, stage, 1, 0)
}

/// Programs of one token that is refused by a number once it is spoiled.
fn single_refused(number: u8, spoil: fn(&mut Rng, &mut [u8])) -> Vec<Vec<u8>> {
    let mut rng = Rng::new(number.into());
    let mut inputs = Vec::new();
    while inputs.len() < SINGLE {
        let mut input = one_token(&mut rng);
        spoil(&mut rng, &mut input[1 + HEADER_LEN..]);
        if check(&input[1..], 3).is_err_and(|r| r.number == number) {
            inputs.push(input);
        }
    }
    inputs
}

/// A destination of any type, or with a number above those that can be written.
fn spoil_destination(rng: &mut Rng, token: &mut [u8]) {
    if rng.percent(50) {
        token[7] = rng.below(7) as u8;
    } else {
        token[4] = rng.between(26, 255) as u8;
    }
}

/// A direct source of any type, or with a number above most counts.
fn spoil_source(rng: &mut Rng, token: &mut [u8]) {
    let source = &mut token[8 * rng.between(1, 2)..];
    if rng.percent(50) {
        source[4] = rng.below(7) as u8;
    } else {
        source[0] = rng.between(10, 255) as u8;
    }
    source[2] = 0;
    source[7] = 0;
}

/// A source that is a temporary register.
fn read_temporary(rng: &mut Rng, token: &mut [u8]) {
    let source = &mut token[8 * rng.between(1, 2)..];
    source[0] = rng.below(26) as u8;
    source[2] = 0;
    source[4] = TEMPORARY;
    source[7] = 0;
}

/// The straight program with a fault at a token.
fn refused(name: &'static str, token: usize) -> Case {
    let mut input = program(1, 2_048, 0);
    input[1 + HEADER_LEN + TOKEN_LEN * token] = UNLISTED;
    Case {
        name,
        tokens: token + 1,
        bytes: HEADER_LEN + TOKEN_LEN * (token + 1),
        inputs: vec![input],
    }
}

/// A program of so many tokens that is accepted. Nested ones are towers of branches, one in another, with a token in
/// each block, as many as there is room for; three tokens of five then are an opener, an els or an eif.
fn program(seed: u64, tokens: usize, nesting: usize) -> Vec<u8> {
    let mut rng = Rng::new(seed);
    let mut list: Vec<Token> = (0..TEMPORARIES).map(written).collect();
    while nesting > 0 && list.len() + 5 * nesting <= tokens {
        for _ in 0..nesting {
            let sources = [temporary(&mut rng), constant(&mut rng, 1)];
            list.push(token(0x1c + rng.below(4) as u32, 0, sources));
            list.push(plain(&mut rng));
        }
        for _ in 0..nesting {
            list.push(token(0x20, 0, [Operand::Unused; 2]));
            list.push(plain(&mut rng));
            list.push(token(0x21, 0, [Operand::Unused; 2]));
        }
    }
    list.resize_with(tokens, || plain(&mut rng));
    let mut input = vec![b'3', 0xa0, 1, 0, 0, 0, 0xa1, 1];
    for token in &list {
        let mut bytes = [0; TOKEN_LEN];
        encode(token, &mut bytes).expect("a token of these kinds");
        input.extend(bytes);
    }
    input
}

/// `mov ft<number>.xyzw v0.xyzw`.
fn written(number: usize) -> Token {
    let mut mov = token(0x00, XYZW, [source(VARYING, 0, IDENTITY), Operand::Unused]);
    mov.destination = mov.destination.map(|d| Destination {
        number: number as u16,
        ..d
    });
    mov
}

/// A token of the kinds that programs mostly have.
fn plain(rng: &mut Rng) -> Token {
    let a = temporary(rng);
    let mut made = match rng.below(12) {
        0 => token(0x00, XYZW, [a, Operand::Unused]),
        1 | 2 => token(0x01, XYZW, [a, constant(rng, 1)]),
        3 | 4 => token(0x03, XYZW, [a, temporary(rng)]),
        5 => token(0x02, 7, [constant(rng, 1), a]),
        6 => token(0x13, 1, [a, constant(rng, 1)]),
        7 => token(0x18, XYZW, [a, constant(rng, 4)]),
        8 => token(0x0e, 7, [a, Operand::Unused]),
        9 => token(0x05, 8, [a, Operand::Unused]),
        10 => token(0x07, 3, [a, temporary(rng)]),
        _ => token(0x28, XYZW, [source(VARYING, 0, IDENTITY), sampler(rng)]),
    };
    if let Some(destination) = &mut made.destination {
        destination.number = rng.below(TEMPORARIES) as u16;
    }
    made
}

/// A token with these sources; it writes to ft0 where its mask is not empty.
fn token(opcode: u32, mask: u8, [source1, source2]: [Operand; 2]) -> Token {
    let destination = Destination {
        number: 0,
        mask,
        register_type: TEMPORARY,
    };
    Token {
        opcode,
        destination: (mask != 0).then_some(destination),
        source1,
        source2,
    }
}

fn temporary(rng: &mut Rng) -> Operand {
    source(TEMPORARY, rng.below(TEMPORARIES), rng.byte())
}

/// A constant, or the first row of a matrix.
fn constant(rng: &mut Rng, rows: usize) -> Operand {
    let swizzle = if rows > 1 { IDENTITY } else { rng.byte() };
    source(CONSTANT, rng.below(200 - rows), swizzle)
}

fn source(register_type: u8, number: usize, swizzle: u8) -> Operand {
    Operand::Direct(Source {
        number: number as u16,
        offset: 0,
        swizzle,
        register_type,
        index_type: 0,
        component: 0,
    })
}

fn sampler(rng: &mut Rng) -> Operand {
    Operand::Sampler(Sampler {
        number: rng.below(16) as u16,
        bias: 0,
        register_type: 5,
        dimension: 0,
        special: 0,
        wrap: rng.below(2) as u8,
        mipmap: rng.below(3) as u8,
        filter: 1,
    })
}
