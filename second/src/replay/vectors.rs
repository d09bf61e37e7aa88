//! The three published vectors of Hierocrypt-3, with the digits as settled, and four of
//! the designers' Noekeon.
//! Document 002, section 4; the README lists each place where the print differs. The
//! documents have none of Noekeon's; the README says where these are from.

use crate::bytes::{from_words, Block};

pub struct Vector {
    pub key: &'static [u32],
    pub plaintext: [u32; 4],
    pub ciphertext: [u32; 4],
}

pub const VECTORS: [Vector; 3] = [
    Vector {
        key: &[0x4703c87e, 0x817842c4, 0xce6b167d, 0x43701b76],
        plaintext: [0x85693846, 0xdb4c1b34, 0x87272e55, 0x5761c7f5],
        ciphertext: [0x5c5f4b00, 0xaec36d89, 0x3cf1041e, 0x7fa8bae8],
    },
    Vector {
        key: &[
            0x7742a038, 0x89b58601, 0xf74d5513, 0x88872377, 0x324fbc1d, 0x30c54fc6,
        ],
        plaintext: [0x54406620, 0x9d931b33, 0x0c9089fd, 0xb4cb8259],
        ciphertext: [0x1d310598, 0x8dbbd50c, 0xb0a17193, 0xea5ba244],
    },
    Vector {
        key: &[
            0x11a18026, 0x9a78dda4, 0x99474621, 0x3b5a6dd6, 0xe34ffe0c, 0xc465d583, 0xaff66e13,
            0x29419c94,
        ],
        plaintext: [0xc16d7efc, 0xa1cbafc7, 0x625cbe9c, 0x2593de2d],
        ciphertext: [0xc86cd3b4, 0xa3185232, 0xe3457d63, 0x8c6515c9],
    },
];

/// That of libtomcrypt's own test first, then three blocks as libtomcrypt enciphers them.
pub const NOEKEON_VECTORS: [Vector; 4] = [
    Vector {
        key: &[0xaa3c8c86, 0xd98bf8be, 0x21e03609, 0x78fbe490],
        plaintext: [0xe4966cd3, 0x13a06caf, 0xd023c9fd, 0x45322316],
        ciphertext: [0xa6ecb8a8, 0x61fd62d9, 0x1302fe9e, 0x47013fc3],
    },
    Vector {
        key: &[0; 4],
        plaintext: [0; 4],
        ciphertext: [0xb1656851, 0x699e29fa, 0x24b70148, 0x503d2dfc],
    },
    Vector {
        key: &[u32::MAX; 4],
        plaintext: [u32::MAX; 4],
        ciphertext: [0x2a78421b, 0x87c7d092, 0x4f26113f, 0x1d1349b2],
    },
    Vector {
        key: &[0xb1656851, 0x699e29fa, 0x24b70148, 0x503d2dfc],
        plaintext: [0x2a78421b, 0x87c7d092, 0x4f26113f, 0x1d1349b2],
        ciphertext: [0xe2f687e0, 0x7b75660f, 0xfc372233, 0xbc47532c],
    },
];

impl Vector {
    pub fn key_bytes(&self) -> Vec<u8> {
        self.key
            .iter()
            .flat_map(|word| word.to_be_bytes())
            .collect()
    }

    pub fn plaintext_block(&self) -> Block {
        from_words(self.plaintext)
    }

    pub fn ciphertext_block(&self) -> Block {
        from_words(self.ciphertext)
    }
}
