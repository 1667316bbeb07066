//! What `agallist` prints, by plain string formatting.

use crate::fields::{Field, Token};
use crate::{judge, tables};

/// What `agallist` prints for an input whose program is small.
pub fn listing(input: &[u8]) -> String {
    if input.len() > 49_160 {
        return "input too long\n".to_string();
    }
    if input.is_empty() {
        return "no edition\n".to_string();
    }
    let edition = match input[0] {
        b'1' => 1,
        b'2' => 2,
        b'3' => 3,
        _ => 0,
    };
    let program = &input[1..];
    match judge(program, edition) {
        Err((number, token, part)) => format!("refused {number} at {token} part {part}\n"),
        Ok((stage, tokens)) => {
            let name = ["vertex", "fragment"][stage as usize];
            format!("agal {edition} {name} {tokens}\n") + &token_lines(&program[7..], stage)
        }
    }
}

fn token_lines(body: &[u8], stage: u8) -> String {
    let mut text = String::new();
    let mut depth = 0;
    for bytes in body.chunks(24) {
        let token = Token(bytes);
        let name = tables::name_of(token.opcode()).unwrap_or_default();
        if name == "eif" {
            depth -= 1;
        }
        let indent = if name == "els" { depth - 1 } else { depth };
        text += &format!(
            "{}{}\n",
            "  ".repeat(indent),
            token_text(token, name, stage)
        );
        if tables::is_opener(name) {
            depth += 1;
        }
    }
    text
}

fn token_text(token: Token, name: &str, stage: u8) -> String {
    let mut words = vec![name.to_string()];
    if tables::has_destination(name) {
        let mut mask = String::new();
        for (bit, letter) in "xyzw".chars().enumerate() {
            if token.mask() >> bit & 1 == 1 {
                mask.push(letter);
            }
        }
        let register = register(token.destination_type(), stage);
        words.push(format!("{register}{}.{mask}", token.destination_number()));
    }
    if tables::has_source1(name) {
        words.push(source_text(token.source(2), stage));
    }
    if name == "tex" {
        words.push(sampler_text(token.source(3)));
    } else if tables::has_source2(name) {
        words.push(source_text(token.source(3), stage));
    }
    words.join(" ")
}

fn source_text(source: Field, stage: u8) -> String {
    let name = register(source.register_type(), stage);
    let letters: String = source.selectors().into_iter().map(letter).collect();
    let number = source.number();
    if source.indirect() {
        let index = register(source.index_type(), stage);
        let component = letter(source.component());
        let offset = source.offset();
        format!("{name}[{index}{number}.{component}+{offset}].{letters}")
    } else {
        format!("{name}{number}.{letters}")
    }
}

fn sampler_text(sampler: Field) -> String {
    format!(
        "fs{}<{},{},{},{},bias={}>",
        sampler.number(),
        ["2d", "cube"][sampler.dimension() as usize],
        ["mipnone", "mipnearest", "miplinear"][sampler.mipmap() as usize],
        ["clamp", "repeat"][sampler.wrap() as usize],
        ["nearest", "linear"][sampler.filter() as usize],
        sampler.bias(),
    )
}

fn letter(component: u8) -> char {
    ['x', 'y', 'z', 'w'][component as usize]
}

fn register(register_type: u8, stage: u8) -> &'static str {
    let vertex = stage == tables::VERTEX;
    match register_type {
        0 => "va",
        1 if vertex => "vc",
        1 => "fc",
        2 if vertex => "vt",
        2 => "ft",
        3 if vertex => "op",
        3 => "oc",
        4 => "v",
        5 => "fs",
        _ => "od",
    }
}
