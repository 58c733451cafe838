//! Takes arguments from an input. After its end all are 0.

pub struct Bytes<'a> {
    left: &'a [u8],
}

impl<'a> Bytes<'a> {
    pub fn new(left: &'a [u8]) -> Self {
        Bytes { left }
    }

    pub fn array<const N: usize>(&mut self) -> [u8; N] {
        let (taken, left) = self.left.split_at(N.min(self.left.len()));
        let mut array = [0; N];
        array[..taken.len()].copy_from_slice(taken);
        self.left = left;
        array
    }

    pub fn byte(&mut self) -> u8 {
        self.array::<1>()[0]
    }

    pub fn word(&mut self) -> u16 {
        u16::from_le_bytes(self.array())
    }

    pub fn number(&mut self) -> u32 {
        u32::from_le_bytes(self.array())
    }

    pub fn signed(&mut self) -> i32 {
        i32::from_le_bytes(self.array())
    }

    /// The upper bits of numbers with a limited range, taken from one byte.
    pub fn wide(&mut self) -> Wide {
        Wide { bits: self.byte() }
    }

    /// How much longer a list is than needed, or shorter.
    pub fn more(&mut self) -> isize {
        i8::from_le_bytes(self.array()).into()
    }

    pub fn is_empty(&self) -> bool {
        self.left.is_empty()
    }

    pub fn rest(&mut self) -> &'a [u8] {
        std::mem::take(&mut self.left)
    }
}

/// For each of up to four numbers, what is set above the bits that the input
/// has for it: nothing, or a bit that a narrower type would lose.
#[derive(Clone, Copy)]
pub struct Wide {
    bits: u8,
}

impl Wide {
    /// The number at this place, for which the input has `bits` bits.
    pub fn number(self, place: u8, stated: impl Into<u32>, bits: u32) -> u32 {
        let above = match self.bits >> (2 * place) & 3 {
            0 => 0,
            1 => 1 << bits,
            2 => 1 << 24,
            _ => 1 << 31,
        };
        stated.into() | above
    }
}

#[cfg(test)]
mod tests {
    use super::*;

    #[test]
    fn upper_bits_go_above_what_is_stated() {
        let wide = Wide {
            bits: 0b11_10_01_00,
        };
        let numbers = [0, 1, 2, 3].map(|place| wide.number(place, 0x12_u8, 8));
        assert_eq!(numbers, [0x12, 0x112, 0x100_0012, 0x8000_0012]);
    }
}
