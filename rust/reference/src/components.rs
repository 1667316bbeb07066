//! Sets of components and of temporary components.

/// A set of temporary components: four bits for each register, x lowest.
/// No edition has more than 26 temporary registers.
#[derive(Clone, Copy)]
pub(crate) struct Temporaries(u128);

impl Temporaries {
    pub(crate) const NONE: Self = Temporaries(0);

    /// Whether all the components are here, four bits for each register from
    /// `number` on.
    #[inline]
    pub(crate) const fn contain(self, number: u16, components: u16) -> bool {
        components & !((self.0 >> shift(number)) as u16) == 0
    }

    /// These and the components of one more register.
    #[inline]
    pub(crate) const fn with(self, number: u16, components: u8) -> Self {
        Temporaries(self.0 | (components as u128) << shift(number))
    }

    /// What is in both sets.
    #[inline]
    pub(crate) const fn both(self, other: Self) -> Self {
        Temporaries(self.0 & other.0)
    }
}

/// Where a register's bits stand. A number that no edition has is cut down:
/// it can be asked for before the register itself is judged.
const fn shift(number: u16) -> u32 {
    4 * (number as u32 % 32)
}

/// The components a swizzle names through the given selectors.
#[inline]
pub(crate) const fn selected(swizzle: u8, selectors: u8) -> u8 {
    SELECTED[(selectors & 15) as usize][swizzle as usize]
}

/// By selectors, then swizzle.
static SELECTED: [[u8; 256]; 16] = {
    let mut table = [[0; 256]; 16];
    let mut at = 0;
    while at < 16 * 256 {
        let (selectors, swizzle) = (at / 256, at % 256);
        let mut selector = 0;
        while selector < 4 {
            if selectors >> selector & 1 == 1 {
                table[selectors][swizzle] |= 1 << (swizzle >> (2 * selector) & 3);
            }
            selector += 1;
        }
        at += 1;
    }
    table
};

#[cfg(test)]
mod tests {
    use super::*;

    #[test]
    fn selected_follows_each_selector() {
        for swizzle in 0..=255u8 {
            for selectors in 0..16u8 {
                let mut expected = 0;
                for selector in 0..4 {
                    if selectors >> selector & 1 == 1 {
                        expected |= 1 << (swizzle >> (2 * selector) & 3);
                    }
                }
                assert_eq!(selected(swizzle, selectors), expected);
            }
        }
        assert_eq!(selected(0xe4, 15), 15);
        assert_eq!(selected(0x00, 15), 1);
    }
}
