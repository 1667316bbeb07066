//! Where the fields of a token stand. All words are little-endian.

/// Bytes before the first token.
pub const HEADER_LEN: usize = 7;

/// Bytes of one token.
pub const TOKEN_LEN: usize = 24;

/// Bits of a destination word that must be 0: the high halves of bytes 2 and 3.
pub(crate) const DESTINATION_UNDEFINED: u32 = 0xf0f0_0000;

/// Bits of a source word that must be 0: all but the low halves of bytes 4
/// and 5, the low two bits of byte 6 and bit 7 of byte 7.
pub(crate) const SOURCE_UNDEFINED: u64 = 0x7ffc_f0f0_0000_0000;

/// Bits of a sampler word that must be 0: byte 3, the high half of byte 4 and
/// the low half of byte 5.
pub(crate) const SAMPLER_UNDEFINED: u64 = 0x0000_0ff0_ff00_0000;

/// The bit of a source word that makes it an indexed source.
const INDIRECT: u64 = 1 << 63;

/// Whether a source word is an indexed source.
pub(crate) const fn is_indexed(word: u64) -> bool {
    word & INDIRECT != 0
}

/// Marks a source word as an indexed source.
pub(crate) const fn indexed(word: u64) -> u64 {
    word | INDIRECT
}

/// The four words of a token as they stand in the bytecode.
#[derive(Clone, Copy, Debug)]
pub(crate) struct Words {
    pub(crate) opcode: u32,
    pub(crate) destination: u32,
    pub(crate) source1: u64,
    pub(crate) source2: u64,
}

impl Words {
    #[inline]
    pub(crate) fn from_bytes(b: &[u8; TOKEN_LEN]) -> Self {
        Words {
            opcode: u32::from_le_bytes([b[0], b[1], b[2], b[3]]),
            destination: u32::from_le_bytes([b[4], b[5], b[6], b[7]]),
            source1: u64::from_le_bytes([b[8], b[9], b[10], b[11], b[12], b[13], b[14], b[15]]),
            source2: u64::from_le_bytes([b[16], b[17], b[18], b[19], b[20], b[21], b[22], b[23]]),
        }
    }

    pub(crate) fn to_bytes(self) -> [u8; TOKEN_LEN] {
        let mut bytes = [0; TOKEN_LEN];
        bytes[0..4].copy_from_slice(&self.opcode.to_le_bytes());
        bytes[4..8].copy_from_slice(&self.destination.to_le_bytes());
        bytes[8..16].copy_from_slice(&self.source1.to_le_bytes());
        bytes[16..24].copy_from_slice(&self.source2.to_le_bytes());
        bytes
    }
}
