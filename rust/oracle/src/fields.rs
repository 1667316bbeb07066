//! Single fields of a token, read byte by byte.

/// The 24 bytes of one token.
#[derive(Clone, Copy)]
pub struct Token<'a>(pub &'a [u8]);

/// The 8 bytes of a source or sampler.
#[derive(Clone, Copy)]
pub struct Field<'a>(pub &'a [u8]);

fn number(low: u8, high: u8) -> u32 {
    low as u32 + 256 * high as u32
}

impl<'a> Token<'a> {
    pub fn opcode(self) -> u32 {
        number(self.0[0], self.0[1]) + 65_536 * number(self.0[2], self.0[3])
    }

    /// The bytes of a part: 1 destination, 2 source 1, 3 source 2.
    pub fn part(self, part: u8) -> &'a [u8] {
        match part {
            1 => &self.0[4..8],
            2 => &self.0[8..16],
            _ => &self.0[16..24],
        }
    }

    pub fn source(self, part: u8) -> Field<'a> {
        Field(self.part(part))
    }

    pub fn destination_number(self) -> u32 {
        number(self.0[4], self.0[5])
    }

    pub fn mask(self) -> u8 {
        self.0[6] % 16
    }

    pub fn destination_type(self) -> u8 {
        self.0[7] % 16
    }
}

impl Field<'_> {
    pub fn number(self) -> u32 {
        number(self.0[0], self.0[1])
    }

    pub fn offset(self) -> u32 {
        self.0[2] as u32
    }

    pub fn bias(self) -> i32 {
        match self.0[2] {
            0..=127 => self.0[2] as i32,
            _ => self.0[2] as i32 - 256,
        }
    }

    /// The components that the four selectors name.
    pub fn selectors(self) -> [u8; 4] {
        let swizzle = self.0[3];
        [
            swizzle % 4,
            swizzle / 4 % 4,
            swizzle / 16 % 4,
            swizzle / 64 % 4,
        ]
    }

    pub fn register_type(self) -> u8 {
        self.0[4] % 16
    }

    pub fn index_type(self) -> u8 {
        self.0[5] % 16
    }

    pub fn component(self) -> u8 {
        self.0[6] % 4
    }

    pub fn indirect(self) -> bool {
        self.0[7] >= 128
    }

    pub fn dimension(self) -> u8 {
        self.0[5] / 16
    }

    pub fn wrap(self) -> u8 {
        self.0[6] / 16
    }

    pub fn special(self) -> u8 {
        self.0[6] % 16
    }

    pub fn filter(self) -> u8 {
        self.0[7] / 16
    }

    pub fn mipmap(self) -> u8 {
        self.0[7] % 16
    }
}
