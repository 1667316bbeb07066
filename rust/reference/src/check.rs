//! Judges whole programs.

use crate::layout::{is_indexed, Words, HEADER_LEN, TOKEN_LEN};
use crate::nesting::Nesting;
use crate::opcodes::listed;
use crate::order::{self, when, Faults};
use crate::profile::Profile;
use crate::record::{Destination, Sampler, Source};
use crate::refusal::{fault, part, Fault, Refusal};
use crate::registers::{limits_of, Limits, CONSTANT, TEMPORARY};

/// An accepted program.
#[derive(Clone, Copy, Debug, PartialEq, Eq, Hash)]
pub struct Accepted {
    /// 0 for a vertex program, 1 for a fragment program.
    pub stage: u8,
    /// How many tokens it has.
    pub tokens: usize,
}

/// Judges a program under an edition: 1 AGAL, 2 AGAL2, 3 AGAL3.
pub fn check(program: &[u8], edition: u32) -> Result<Accepted, Refusal> {
    let by_stage = limits_of(edition).ok_or(Refusal::plain(fault::EDITION))?;
    let (stage, body) = header(program).map_err(Refusal::plain)?;
    let limits = &by_stage[usize::from(stage)];
    let (tokens, rest) = body.as_chunks::<TOKEN_LEN>();
    if !rest.is_empty() {
        return Err(Refusal::plain(fault::RAGGED_LENGTH));
    }
    if tokens.len() > limits.tokens {
        return Err(Refusal::plain(fault::TOO_MANY_TOKENS));
    }
    let mut nesting = Nesting::new();
    for (place, bytes) in tokens.iter().enumerate() {
        judge(limits, &mut nesting, place, bytes).map_err(|fault| fault.at(place))?;
    }
    match nesting.innermost_opener() {
        Some(opener) => Err(Fault::new(fault::OPEN_BRANCH, part::OPCODE).at(opener)),
        None => Ok(Accepted {
            stage,
            tokens: tokens.len(),
        }),
    }
}

/// Splits a program into its stage, 0 or 1, and the bytes after the header.
fn header(program: &[u8]) -> Result<(u8, &[u8]), u8> {
    let (header, body) = program
        .split_first_chunk::<HEADER_LEN>()
        .ok_or(fault::SHORT_PROGRAM)?;
    let [first, v0, v1, v2, v3, type_id, stage] = *header;
    if first != 0xa0 {
        Err(fault::FIRST_BYTE)
    } else if u32::from_le_bytes([v0, v1, v2, v3]) != 1 {
        Err(fault::VERSION)
    } else if type_id != 0xa1 {
        Err(fault::TYPE_ID)
    } else if stage > 1 {
        Err(fault::STAGE)
    } else {
        Ok((stage, body))
    }
}

/// Judges one token by faults 9 to 21 and passes it.
#[inline]
fn judge(
    limits: &Limits,
    nesting: &mut Nesting,
    place: usize,
    bytes: &[u8; TOKEN_LEN],
) -> Result<(), Fault> {
    let words = Words::from_bytes(bytes);
    let (_, profile) =
        listed(words.opcode).ok_or(Fault::new(fault::UNLISTED_OPCODE, part::OPCODE))?;
    let destination = Destination::from_word(words.destination);
    let (read1, read2) = profile.reads(&words);
    let source1 = source_faults(&SOURCE1, limits, nesting, words.source1, 1, read1);
    let source2 = source_faults(
        &SOURCE2,
        limits,
        nesting,
        words.source2,
        profile.rows,
        read2,
    );
    let faults = limits.absent
        | nesting.misplaced()
        | profile.stray_bits(&words)
        | destination_faults(limits, profile, &destination)
        | source1
        | source2
        | special_faults(limits, profile, &words);
    order::first(faults & profile.possible)?;
    // An unused destination is all 0 and so of another type.
    let is_temporary = destination.register_type == TEMPORARY;
    let written = if is_temporary { destination.mask } else { 0 };
    nesting.write(destination.number, written);
    nesting.pass(profile.flow, place);
    Ok(())
}

/// Faults 14 and 15.
#[inline]
fn destination_faults(limits: &Limits, profile: &Profile, destination: &Destination) -> Faults {
    let count = limits.writable[usize::from(destination.register_type)];
    let mask = destination.mask;
    when(destination.number >= count, order::DESTINATION)
        | when(
            (mask == 0) | (mask & profile.refused_mask != 0),
            order::MASK,
        )
}

/// The faults of one of the two sources.
struct SourceFaults {
    indexed: Faults,
    direct: Faults,
    unwritten: Faults,
}

const SOURCE1: SourceFaults = SourceFaults {
    indexed: order::INDEXED_SOURCE1,
    direct: order::DIRECT_SOURCE1,
    unwritten: order::UNWRITTEN1,
};

const SOURCE2: SourceFaults = SourceFaults {
    indexed: order::INDEXED_SOURCE2,
    direct: order::DIRECT_SOURCE2,
    unwritten: order::UNWRITTEN2,
};

/// Faults 16, 17 and 21 of a source that spans `rows` registers and, if it is
/// direct, reads these components of them.
#[inline]
fn source_faults(
    faults: &SourceFaults,
    limits: &Limits,
    nesting: &Nesting,
    word: u64,
    rows: u8,
    reads: u16,
) -> Faults {
    let source = Source::from_word(word);
    let rows = u32::from(rows);
    let (register_type, reads, unlawful) = if is_indexed(word) {
        let unlawful = (source.register_type != CONSTANT)
            | (source.number >= limits.index[usize::from(source.index_type)])
            | (u32::from(source.offset) + rows > u32::from(limits.constants));
        let reads = 1 << source.component;
        (source.index_type, reads, when(unlawful, faults.indexed))
    } else {
        // Number and offset together are above any count if the offset isn't 0.
        let number_and_offset = word as u32 & 0xff_ffff;
        let count = limits.readable[usize::from(source.register_type)];
        let unlawful = number_and_offset + rows > u32::from(count);
        (source.register_type, reads, when(unlawful, faults.direct))
    };
    let unwritten = (register_type == TEMPORARY) & !nesting.has_written(source.number, reads);
    unlawful | when(unwritten, faults.unwritten)
}

/// Faults 18 and 19, which few opcodes can have.
#[inline]
fn special_faults(limits: &Limits, profile: &Profile, words: &Words) -> Faults {
    const IDENTITY: u8 = 0xe4;
    if profile.possible & (order::SWIZZLE1 | order::SWIZZLE2 | order::SAMPLER) == 0 {
        return 0;
    }
    let first = Source::from_word(words.source1).swizzle;
    let second = Source::from_word(words.source2).swizzle;
    let sampler = Sampler::from_word(words.source2);
    let lawful = sampler.settings_lawful() && sampler.number < limits.samplers;
    when(first != (first & 3) * 0x55, order::SWIZZLE1)
        | when(second != IDENTITY, order::SWIZZLE2)
        | when(!lawful, order::SAMPLER)
}
