//! Cases worked by hand, the bench checks first.

mod common;

use common::*;
use reference::{bias, check, report, Sampler};

fn check_vertex(edition: u32, tokens: &[Bytes]) -> Result<reference::Accepted, reference::Refusal> {
    check(&program(VERTEX, tokens), edition)
}

#[test]
fn listing_of_two_tokens() {
    let program = [
        0xa0, 0x01, 0, 0, 0, 0xa1, 0, //
        0x18, 0, 0, 0, 0, 0, 0x0f, 0x03, 0, 0, 0, 0xe4, 0, 0, 0, 0, 0, 0, 0, 0xe4, 1, 0, 0,
        0, //
        0x00, 0, 0, 0, 0, 0, 0x0f, 0x04, 1, 0, 0, 0xe4, 0, 0, 0, 0, 0, 0, 0, 0, 0, 0, 0, 0,
    ];
    assert_eq!(program.len(), 55);
    let mut input = vec![b'1'];
    input.extend(program);
    let printed = report(&input);
    let expected = "agal 1 vertex 2\n\
                    m44 op0.xyzw va0.xyzw vc0.xyzw\n\
                    mov v0.xyzw va1.xyzw\n";
    assert_eq!(printed.len(), 68);
    assert_eq!(String::from_utf8_lossy(&printed), expected);
}

#[test]
fn headers() {
    assert_eq!(check(&[], 1), refused(2, 0, 0));
    for edition in 1..=3 {
        assert_eq!(check(&program(VERTEX, &[]), edition), accepted(VERTEX, 0));
        assert_eq!(
            check(&program(FRAGMENT, &[]), edition),
            accepted(FRAGMENT, 0)
        );
    }
    let mut eight = program(VERTEX, &[]);
    eight.push(0);
    assert_eq!(check(&eight, 1), refused(7, 0, 0));
    for edition in [0, 4, 257, u32::MAX] {
        assert_eq!(check(&[], edition), refused(1, 0, 0));
    }
    let wrong = [(0, 3), (1, 4), (2, 4), (3, 4), (4, 4), (5, 5), (6, 6)];
    for (place, number) in wrong {
        let mut bytes = program(VERTEX, &[]);
        bytes[place] = 2;
        assert_eq!(check(&bytes, 1), refused(number, 0, 0));
        bytes.truncate(6);
        assert_eq!(check(&bytes, 1), refused(2, 0, 0));
    }
}

#[test]
fn opcodes() {
    assert_eq!(check_vertex(1, &[[0; 24]]), refused(14, 0, 1));
    let unlisted = token(0x2b, (3, 0, XYZW), direct(1, 0, E4), 0);
    assert_eq!(check_vertex(1, &[unlisted]), refused(9, 0, 0));
    let high = token(0x0100_0000, (3, 0, XYZW), direct(1, 0, E4), 0);
    assert_eq!(check_vertex(1, &[high]), refused(9, 0, 0));
    assert_eq!(check_vertex(1, &[ife()]), refused(10, 0, 0));
    assert_eq!(check_vertex(2, &[ife()]), refused(22, 0, 0));
    let kil = token(0x27, NOWHERE, direct(1, 0, 0), 0);
    assert_eq!(check_vertex(1, &[kil]), refused(11, 0, 0));
    assert_eq!(check(&program(FRAGMENT, &[kil]), 1), accepted(FRAGMENT, 1));
}

#[test]
fn stray_bits() {
    // A stray bit of an unused source 2 outranks one of the destination.
    let mut mov = token(0x00, (3, 0, XYZW), direct(1, 0, E4), 0);
    mov[6] |= 0x10;
    assert_eq!(check_vertex(1, &[mov]), refused(13, 0, 1));
    mov[23] = 1;
    assert_eq!(check_vertex(1, &[mov]), refused(12, 0, 3));
    let mut end = eif();
    end[8] = 1;
    end[16] = 1;
    assert_eq!(check_vertex(2, &[end]), refused(12, 0, 2));
    end[4] = 1;
    assert_eq!(check_vertex(2, &[end]), refused(12, 0, 1));
    assert_eq!(check_vertex(1, &[end]), refused(10, 0, 0));
}

#[test]
fn matrices_span_rows() {
    let m44 = |number| token(0x18, (3, 0, XYZW), direct(0, 0, E4), direct(1, number, E4));
    assert_eq!(check_vertex(1, &[m44(124)]), accepted(VERTEX, 1));
    assert_eq!(check_vertex(1, &[m44(125)]), refused(17, 0, 3));
    assert_eq!(check_vertex(1, &[m44(65_535)]), refused(17, 0, 3));
    let indexed_m34 = |offset| {
        let matrix = indexed((0, 7, 0), offset, E4);
        token(0x19, (3, 0, XYZ), direct(0, 0, E4), matrix)
    };
    assert_eq!(check_vertex(1, &[indexed_m34(125)]), accepted(VERTEX, 1));
    assert_eq!(check_vertex(1, &[indexed_m34(126)]), refused(16, 0, 3));
    assert_eq!(check_vertex(2, &[indexed_m34(247)]), accepted(VERTEX, 1));
    assert_eq!(check_vertex(2, &[indexed_m34(255)]), refused(16, 0, 3));
}

#[test]
fn unwritten_temporaries() {
    assert_eq!(check_vertex(1, &[read(0)]), refused(21, 0, 2));
    assert_eq!(check_vertex(1, &[write(0), read(0)]), accepted(VERTEX, 2));
    let both = [ife(), write(0), els(), write(0), eif(), read(0)];
    assert_eq!(check_vertex(2, &both), accepted(VERTEX, 6));
    let first_only = [ife(), write(0), els(), write(1), eif(), read(0)];
    assert_eq!(check_vertex(2, &first_only), refused(21, 5, 2));
    let second_only = [ife(), els(), write(0), eif(), read(0)];
    assert_eq!(check_vertex(2, &second_only), refused(21, 4, 2));
    let no_els = [ife(), write(0), read(0), eif(), read(0)];
    assert_eq!(check_vertex(2, &no_els), refused(21, 4, 2));
    let before = [write(0), ife(), read(0), els(), read(0), eif(), read(0)];
    assert_eq!(check_vertex(2, &before), accepted(VERTEX, 7));
    let across = [ife(), write(0), els(), read(0), eif()];
    assert_eq!(check_vertex(2, &across), refused(21, 3, 2));
}

#[test]
fn reads_come_before_the_write() {
    let add = token(0x01, (2, 0, XYZW), direct(2, 0, E4), direct(1, 0, E4));
    assert_eq!(check_vertex(1, &[add]), refused(21, 0, 2));
    let add = token(0x01, (2, 0, XYZW), direct(1, 0, E4), direct(2, 0, E4));
    assert_eq!(check_vertex(1, &[add]), refused(21, 0, 3));
}

#[test]
fn index_registers_are_read() {
    let mov = |component| token(0x00, (3, 0, XYZW), indexed((2, 0, component), 0, E4), 0);
    assert_eq!(check_vertex(1, &[mov(0)]), refused(21, 0, 2));
    let only_x = token(0x00, (2, 0, X), direct(1, 0, E4), 0);
    assert_eq!(check_vertex(1, &[only_x, mov(0)]), accepted(VERTEX, 2));
    assert_eq!(check_vertex(1, &[only_x, mov(1)]), refused(21, 1, 2));
    // A direct source keeps I and Q, but they mean nothing.
    let kept = direct(1, 0, E4) | 2 << 40 | 3 << 48;
    let mov = token(0x00, (3, 0, XYZW), kept, 0);
    assert_eq!(check_vertex(1, &[mov]), accepted(VERTEX, 1));
}

/// nrm, crs, dp3 and m33 read by three selectors, dp4, m34 and m44 by four, whatever the mask.
#[test]
fn selectors_that_no_mask_chooses() {
    let write = |mask| token(0x00, (2, 0, mask), direct(1, 0, E4), 0);
    let constant = direct(1, 0, E4);
    let opcodes = [
        (0x0e, 0),
        (0x11, constant),
        (0x12, constant),
        (0x17, constant),
    ];
    for (opcode, source2) in opcodes {
        let reads = token(opcode, (3, 0, X), direct(2, 0, E4), source2);
        assert_eq!(check_vertex(1, &[write(X), reads]), refused(21, 1, 2));
        assert_eq!(check_vertex(1, &[write(XYZ), reads]), accepted(VERTEX, 2));
    }
    for opcode in [0x13, 0x18, 0x19] {
        let reads = token(opcode, (3, 0, X), direct(2, 0, E4), constant);
        assert_eq!(check_vertex(1, &[write(XYZ), reads]), refused(21, 1, 2));
        assert_eq!(check_vertex(1, &[write(XYZW), reads]), accepted(VERTEX, 2));
    }
    for opcode in [0x11, 0x12] {
        let reads = token(opcode, (3, 0, X), constant, direct(2, 0, E4));
        assert_eq!(check_vertex(1, &[write(X), reads]), refused(21, 1, 3));
        assert_eq!(check_vertex(1, &[write(XYZ), reads]), accepted(VERTEX, 2));
    }
}

/// On one way source 1 is unwritten, on the other source 2.
#[test]
fn the_part_is_of_all_ways() {
    let add = |a, b| token(0x01, (3, 0, XYZW), direct(2, a, E4), direct(2, b, E4));
    let branch = [ife(), write(0), els(), write(1), eif()];
    for (a, b) in [(0, 1), (1, 0)] {
        let mut tokens = branch.to_vec();
        tokens.push(add(a, b));
        assert_eq!(check_vertex(2, &tokens), refused(21, 5, 2));
    }
}

/// A register of another type with the same number is another register.
#[test]
fn only_temporaries_are_written() {
    let write = |kind| token(0x00, (kind, 0, XYZW), direct(1, 0, E4), 0);
    for kind in [3, 4] {
        assert_eq!(check_vertex(1, &[write(kind), read(0)]), refused(21, 1, 2));
    }
    for kind in [3, 6] {
        let tokens = program(FRAGMENT, &[write(kind), read(0)]);
        assert_eq!(check(&tokens, 2), refused(21, 1, 2));
    }
}

/// A number of 256 has a low byte of 0.
#[test]
fn numbers_of_two_bytes() {
    let mov = |to, from| token(0x00, to, from, 0);
    let (out, constant) = ((3, 0, XYZW), direct(1, 0, E4));
    for kind in [2, 3, 4] {
        let tokens = [mov((kind, 256, XYZW), constant)];
        assert_eq!(check_vertex(3, &tokens), refused(14, 0, 1));
    }
    for kind in [0, 1, 2] {
        let tokens = [mov(out, indexed((kind, 256, 0), 0, E4))];
        assert_eq!(check_vertex(3, &tokens), refused(16, 0, 2));
        let tokens = [mov(out, direct(kind, 256, E4))];
        assert_eq!(check_vertex(3, &tokens), refused(17, 0, 2));
    }
    let tex = |number| token(0x28, out, direct(4, 0, E4), direct(5, number, 0));
    let check = |number| check(&program(FRAGMENT, &[tex(number)]), 3);
    assert_eq!(check(0), accepted(FRAGMENT, 1));
    assert_eq!(check(256), refused(19, 0, 3));
}

/// The first fault is named: by token, then by number.
#[test]
fn the_order_of_faults() {
    assert_eq!(check_vertex(2, &[read(0), eif()]), refused(21, 0, 2));
    assert_eq!(check_vertex(1, &[eif()]), refused(10, 0, 0));
    assert_eq!(check_vertex(1, &[els()]), refused(10, 0, 0));
    // kil in a vertex program, with a destination that it has no use for.
    let kil = token(0x27, (3, 0, XYZW), direct(1, 0, 0), 0);
    assert_eq!(check_vertex(1, &[kil]), refused(11, 0, 0));
    assert_eq!(check(&program(FRAGMENT, &[kil]), 1), refused(12, 0, 1));
    // Mask 0 before a source that has a fault, source 1 before source 2, both before an unwritten one.
    let faulty = direct(3, 0, E4);
    let mov = token(0x00, (3, 0, 0), faulty, 0);
    assert_eq!(check_vertex(1, &[mov]), refused(15, 0, 1));
    let add = token(0x01, (3, 0, XYZW), faulty, indexed((3, 0, 0), 0, E4));
    assert_eq!(check_vertex(1, &[add]), refused(17, 0, 2));
    let add = token(0x01, (3, 0, XYZW), direct(2, 0, E4), faulty);
    assert_eq!(check_vertex(1, &[add]), refused(17, 0, 3));
    // An index is for vertex programs, of whatever type its register is.
    for kind in [0, 1, 2] {
        let mov = token(0x00, (3, 0, XYZW), indexed((kind, 0, 0), 0, E4), 0);
        assert_eq!(check(&program(FRAGMENT, &[mov]), 2), refused(16, 0, 2));
    }
}

#[test]
fn texture_coordinates() {
    let tex = |dimension: u64| {
        let sampler = 5 << 32 | dimension << 44;
        token(0x28, (3, 0, XYZW), direct(2, 0, E4), sampler)
    };
    let write = |mask| token(0x00, (2, 0, mask), direct(1, 0, E4), 0);
    let check = |tokens: &[Bytes]| check(&program(FRAGMENT, tokens), 1);
    assert_eq!(check(&[write(1), tex(0)]), refused(21, 1, 2));
    assert_eq!(check(&[write(3), tex(0)]), accepted(FRAGMENT, 2));
    assert_eq!(check(&[write(3), tex(1)]), refused(21, 1, 2));
    assert_eq!(check(&[write(7), tex(1)]), accepted(FRAGMENT, 2));
    assert_eq!(check(&[write(7), tex(2)]), refused(19, 1, 3));
}

#[test]
fn branches() {
    let twice = [ife(), els(), els(), eif()];
    assert_eq!(check_vertex(2, &twice), refused(20, 2, 0));
    assert_eq!(check_vertex(2, &[els()]), refused(20, 0, 0));
    assert_eq!(check_vertex(2, &[eif()]), refused(20, 0, 0));
    let open = [ife(), ife(), eif(), ife(), els(), write(0)];
    assert_eq!(check_vertex(2, &open), refused(22, 3, 0));
    let mut nested = vec![ife(); 16];
    nested.extend(vec![eif(); 16]);
    assert_eq!(check_vertex(2, &nested), accepted(VERTEX, 32));
    assert_eq!(check_vertex(3, &nested), accepted(VERTEX, 32));
    let mut nested = vec![ife(); 17];
    nested.extend(vec![eif(); 17]);
    assert_eq!(check_vertex(2, &nested), refused(20, 16, 0));
    // 20 is judged before 21, but after the sources.
    let unwritten = token(0x1c, NOWHERE, direct(2, 0, E4), direct(1, 0, E4));
    let faulty = token(0x1c, NOWHERE, direct(1, 0, E4), direct(3, 0, E4));
    nested.truncate(16);
    nested.push(unwritten);
    assert_eq!(check_vertex(2, &nested), refused(20, 16, 0));
    nested[16] = faulty;
    assert_eq!(check_vertex(2, &nested), refused(17, 16, 3));
}

#[test]
fn token_limits() {
    for (edition, limit) in [(1, 200), (2, 1_024), (3, 2_048)] {
        let tokens = vec![write(0); limit + 1];
        let full = program(FRAGMENT, &tokens[..limit]);
        assert_eq!(check(&full, edition), accepted(FRAGMENT, limit));
        let over = program(FRAGMENT, &tokens);
        assert_eq!(check(&over, edition), refused(8, 0, 0));
    }
}

#[test]
fn bias_is_signed_eighths() {
    let sampler = |bias| Sampler {
        number: 0,
        bias,
        register_type: 5,
        dimension: 0,
        wrap: 0,
        special: 0,
        filter: 0,
        mipmap: 0,
    };
    assert_eq!(bias(&sampler(-4)), -0.5);
    assert_eq!(bias(&sampler(-128)), -16.0);
    assert_eq!(bias(&sampler(127)), 15.875);
    assert_eq!(bias(&sampler(0)).to_bits(), 0);
    for b in i8::MIN..=i8::MAX {
        assert_eq!(bias(&sampler(b)) * 8.0, f32::from(b));
    }
}
