//! The fields of 256 elements, each by its modulus of degree 8.
//! Follows document 002, section 3.7, and document 001, the paragraph on Power; serves
//! Noekeon's constants too.

/// Bytes as polynomials over GF(2), bit 7 at z^7, modulo z^8 plus the low part.
#[derive(Clone, Copy, Debug, PartialEq, Eq)]
pub struct Field {
    low: u8,
}

impl Field {
    /// The field whose modulus has the bits of `modulus`, the one at z^8 included.
    pub const fn modulo(modulus: u16) -> Field {
        assert!(modulus >> 8 == 1, "the modulus has degree 8");
        Field {
            low: (modulus & 0xFF) as u8,
        }
    }

    const fn times_z(self, x: u8) -> u8 {
        let shifted = x << 1;
        if x & 0x80 == 0 {
            shifted
        } else {
            shifted ^ self.low
        }
    }

    pub const fn times(self, a: u8, b: u8) -> u8 {
        let (mut left, mut shifted, mut sum) = (a, b, 0);
        while left != 0 {
            if left & 1 == 1 {
                sum ^= shifted;
            }
            left >>= 1;
            shifted = self.times_z(shifted);
        }
        sum
    }

    pub fn power(self, x: u8, exponent: u32) -> u8 {
        (0..exponent).fold(1, |product, _| self.times(product, x))
    }

    /// The element whose product with x is 1, found by trying all of them.
    pub fn reciprocal(self, x: u8) -> Option<u8> {
        (0..=255).find(|&y| self.times(x, y) == 1)
    }
}
