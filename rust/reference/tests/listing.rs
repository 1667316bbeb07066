//! Lines and whole listings.

mod common;

use common::*;
use generate::{input, record, Rng};
use reference::{
    decode, encode, line, opcode, report, Operand, Refusal, Sampler, Source, Token, MAX_LINE_LEN,
    TOKEN_LEN,
};

fn plain(number: u8) -> Refusal {
    Refusal {
        number,
        token: 0,
        part: 0,
    }
}

/// A record's line by string formatting, or nothing if it has none.
fn naive_line(token: &Token, stage: u8, depth: u32) -> Option<String> {
    encode(token, &mut [0; TOKEN_LEN]).ok()?;
    if stage > 1 || depth > 16 {
        return None;
    }
    let mut text = "  ".repeat(depth as usize) + opcode(token.opcode)?.name;
    if let Some(d) = token.destination {
        let letters = "xyzw".chars().enumerate();
        let mask: String = letters
            .filter(|(bit, _)| d.mask >> bit & 1 == 1)
            .map(|(_, letter)| letter)
            .collect();
        text += &format!(" {}{}.{mask}", name(d.register_type, stage)?, d.number);
    }
    for operand in [token.source1, token.source2] {
        text += &match operand {
            Operand::Unused => String::new(),
            Operand::Direct(s) => direct_text(&s, stage)?,
            Operand::Indexed(s) => indexed_text(&s, stage)?,
            Operand::Sampler(s) => sampler_text(&s)?,
        };
    }
    Some(text + "\n")
}

fn name(register_type: u8, stage: u8) -> Option<&'static str> {
    let pairs = [
        ["va", "va"],
        ["vc", "fc"],
        ["vt", "ft"],
        ["op", "oc"],
        ["v", "v"],
        ["fs", "fs"],
        ["od", "od"],
    ];
    pairs
        .get(register_type as usize)
        .map(|pair| pair[stage as usize])
}

fn letters(swizzle: u8) -> String {
    let letter = |shift: u8| ["x", "y", "z", "w"][(swizzle >> shift & 3) as usize];
    [0, 2, 4, 6].map(letter).concat()
}

fn direct_text(s: &Source, stage: u8) -> Option<String> {
    let name = name(s.register_type, stage)?;
    Some(format!(" {name}{}.{}", s.number, letters(s.swizzle)))
}

fn indexed_text(s: &Source, stage: u8) -> Option<String> {
    let index = format!("{}{}", name(s.index_type, stage)?, s.number);
    let component = &letters(s.component)[..1];
    let constant = name(s.register_type, stage)?;
    let letters = letters(s.swizzle);
    Some(format!(
        " {constant}[{index}.{component}+{}].{letters}",
        s.offset
    ))
}

fn sampler_text(s: &Sampler) -> Option<String> {
    if s.register_type != 5 || s.special != 0 {
        return None;
    }
    let dimension = ["2d", "cube"].get(s.dimension as usize)?;
    let mipmap = ["mipnone", "mipnearest", "miplinear"].get(s.mipmap as usize)?;
    let wrap = ["clamp", "repeat"].get(s.wrap as usize)?;
    let filter = ["nearest", "linear"].get(s.filter as usize)?;
    let settings = format!("{dimension},{mipmap},{wrap},{filter},bias={}", s.bias);
    Some(format!(" fs{}<{settings}>", s.number))
}

#[test]
fn lines_of_records() {
    let mut rng = Rng::new(9);
    let mut printed = 0;
    for _ in 0..500_000 {
        let token = record(&mut rng);
        let stage = rng.pick(&[0, 0, 0, 1, 1, 1, 2, 255]);
        let depth = match rng.below(20) {
            0 => rng.pick(&[17, 18, 255, 256, 1 << 16, u32::MAX]),
            _ => rng.below(17) as u32,
        };
        let expected = naive_line(&token, stage, depth);
        let length = match (&expected, rng.below(4)) {
            (Some(text), 0) => text.len(),
            (Some(text), 1) => text.len() - 1,
            _ => rng.below(2 * MAX_LINE_LEN),
        };
        let mut buffer = vec![0x55; length];
        let answer = line(&token, stage, depth, &mut buffer);
        let context = || format!("{token:?} stage {stage} depth {depth} buffer {length}");
        let written = match expected {
            None => {
                assert_eq!(answer, Err(plain(25)), "{}", context());
                0
            }
            Some(text) if text.len() > length => {
                assert_eq!(answer, Err(plain(23)), "{}", context());
                0
            }
            Some(text) => {
                assert_eq!(answer, Ok(text.len()), "{}", context());
                assert_eq!(&buffer[..text.len()], text.as_bytes(), "{}", context());
                printed += 1;
                text.len()
            }
        };
        let untouched = buffer[written..].iter().all(|&byte| byte == 0x55);
        assert!(untouched, "{}", context());
    }
    assert!(printed > 100_000);
}

fn printed(token: &Token, stage: u8, depth: u32) -> String {
    let mut buffer = [0; MAX_LINE_LEN];
    let length = line(token, stage, depth, &mut buffer).unwrap();
    String::from_utf8_lossy(&buffer[..length]).into_owned()
}

#[test]
fn lines_worked_by_hand() {
    let mov = token(0x00, (3, 0, XYZ), indexed((0, 1, 0), 3, E4), 0);
    let mov = decode(&mov).unwrap();
    assert_eq!(printed(&mov, 0, 0), "mov op0.xyz vc[va1.x+3].xyzw\n");
    assert_eq!(printed(&mov, 1, 1), "  mov oc0.xyz fc[va1.x+3].xyzw\n");
    let sampler = 0xfc << 16 | 5 << 32;
    let tex = token(0x28, (2, 1, XYZW), direct(4, 0, 0x54), sampler);
    let mut tex = decode(&tex).unwrap();
    let settings = "fs0<2d,mipnone,clamp,nearest,bias=-4>";
    assert_eq!(
        printed(&tex, 1, 0),
        format!("tex ft1.xyzw v0.xyyy {settings}\n")
    );
    // Meaningless fields of a direct source are neither printed nor refused.
    if let Operand::Direct(source) = &mut tex.source1 {
        source.offset = 9;
        source.index_type = 15;
        source.component = 3;
    }
    tex.destination.as_mut().unwrap().mask = 0;
    assert_eq!(
        printed(&tex, 0, 0),
        format!("tex vt1. v0.xyyy {settings}\n")
    );
    let end = decode(&eif()).unwrap();
    assert_eq!(printed(&end, 0, 16), " ".repeat(32) + "eif\n");
    assert_eq!(line(&end, 0, 17, &mut [0; 99]), Err(plain(25)));
    assert_eq!(line(&end, 2, 0, &mut [0; 99]), Err(plain(25)));
    assert_eq!(line(&end, 0, 0, &mut [0; 3]), Err(plain(23)));
}

#[test]
fn the_longest_line() {
    let source = 0xffff | 0xff << 16 | 0xff << 24 | 1 << 32 | 3 << 48 | 1 << 63;
    let sampler = 0xffff | 0x80 << 16 | 5 << 32 | 1 << 44 | 1 << 52 | 1 << 56;
    let tex = token(0x28, (3, 0xffff, XYZW), source, sampler);
    let text = printed(&decode(&tex).unwrap(), 0, 16);
    assert_eq!(text.len(), MAX_LINE_LEN, "{text}");
}

#[test]
fn inputs_without_a_program() {
    assert_eq!(report(b""), b"no edition\n");
    assert_eq!(report(b"1"), b"refused 2 at 0 part 0\n");
    assert_eq!(report(b"\x01"), b"refused 1 at 0 part 0\n");
    assert_eq!(report(b"4"), b"refused 1 at 0 part 0\n");
    let longest = vec![b'3'; 49_161];
    assert_eq!(report(&longest), b"input too long\n");
    assert_eq!(report(&longest[1..]), b"refused 3 at 0 part 0\n");
}

#[test]
fn the_longest_program_is_listed() {
    let mut input = vec![b'3'];
    input.extend(program(FRAGMENT, &vec![write(7); 2_048]));
    assert_eq!(input.len(), 49_160);
    let mut expected = "agal 3 fragment 2048\n".to_string();
    expected += &"mov ft7.xyzw fc0.xyzw\n".repeat(2_048);
    assert_eq!(report(&input), expected.as_bytes());
}

#[test]
fn branches_are_indented() {
    let mut input = vec![b'2'];
    let tokens = [ife(), write(0), ife(), eif(), els(), write(1), eif()];
    input.extend(program(VERTEX, &tokens));
    let expected = "agal 2 vertex 7\n\
                    ife vc0.xyzw vc0.xyzw\n\
                    \x20 mov vt0.xyzw vc0.xyzw\n\
                    \x20 ife vc0.xyzw vc0.xyzw\n\
                    \x20 eif\n\
                    els\n\
                    \x20 mov vt1.xyzw vc0.xyzw\n\
                    eif\n";
    assert_eq!(String::from_utf8_lossy(&report(&input)), expected);
}

#[test]
fn reports_against_the_oracle() {
    let mut rng = Rng::new(10);
    let mut compared = 0;
    while compared < 20_000 {
        let input = input(&mut rng);
        if is_small(&input) {
            let expected = oracle::listing(&input);
            let printed = report(&input);
            assert_eq!(
                String::from_utf8_lossy(&printed),
                expected,
                "{}",
                hex(&input)
            );
            compared += 1;
        }
    }
}

/// Whether the oracle can walk every way, or need not.
fn is_small(input: &[u8]) -> bool {
    let tokens = input.get(8..).unwrap_or_default().chunks(24);
    let openers = tokens.filter(|t| (0x1c..=0x1f).contains(&t[0])).count();
    input.len() > 49_000 || (openers <= 10 && input.len() < 8 + 24 * 64)
}
