//! The cipher numbers that the parts of the script, and the tests, hand in.
//! Follows document 01, 'What is built', and document 02, request 2.

/// Legal numbers, and others to stand beside them.
pub struct Ciphers {
    /// The legal ones, each with each of its key lengths.
    pub legal: &'static [(u8, u8)],
    /// For a call: legal ones, illegal ones, those that merely end in a legal byte.
    pub numbers: &'static [u64],
    /// Illegal ones for a call.
    pub illegal: &'static [u64],
    /// Illegal ones for a record.
    pub illegal_bytes: &'static [u8],
}

impl Ciphers {
    /// Each legal number once.
    pub fn legal_numbers(&self) -> Vec<u8> {
        let mut numbers: Vec<u8> = self.legal.iter().map(|&(cipher, _)| cipher).collect();
        numbers.dedup();
        numbers
    }
}

/// Every cipher with each of its key lengths.
pub const LEGAL: [(u8, u8); 8] = [
    (1, 16),
    (1, 24),
    (1, 32),
    (2, 16),
    (2, 24),
    (2, 32),
    (3, 16),
    (4, 16),
];

pub const ALL: Ciphers = Ciphers {
    legal: &LEGAL,
    numbers: &[
        0,
        1,
        2,
        3,
        4,
        5,
        255,
        256,
        257,
        258,
        259,
        260,
        (1 << 32) + 1,
        (1 << 32) + 2,
        (1 << 63) + 3,
        (1 << 63) + 4,
        u64::MAX,
    ],
    illegal: &[0, 5, 257, 258, 259, 260, u64::MAX],
    illegal_bytes: &[0, 5, 6, 128, 255],
};

/// The parts of the base were written when the earlier Noekeon was number 3 and no
/// cipher had number 4. They are the same calls still, with 4 for 3, and with 7 for the 4
/// that was to be refused; 7 stood nowhere in them, so the change can be taken back.
pub const BASE: Ciphers = Ciphers {
    legal: &[
        (1, 16),
        (1, 24),
        (1, 32),
        (2, 16),
        (2, 24),
        (2, 32),
        (4, 16),
    ],
    numbers: &[
        0,
        1,
        2,
        4,
        7,
        255,
        256,
        257,
        258,
        259,
        (1 << 32) + 1,
        (1 << 32) + 2,
        (1 << 63) + 3,
        u64::MAX,
    ],
    illegal: &[0, 7, 257, 258, 259, u64::MAX],
    illegal_bytes: &[0, 7, 5, 128, 255],
};

/// Number 3 as request 2 has it, and the earlier rule under number 4.
pub const NOEKEONS: Ciphers = Ciphers {
    legal: &[(3, 16), (4, 16)],
    numbers: &[
        0,
        3,
        4,
        5,
        6,
        7,
        255,
        256,
        259,
        260,
        (1 << 32) + 3,
        (1 << 32) + 4,
        (1 << 63) + 4,
        u64::MAX,
    ],
    illegal: &[0, 5, 259, 260, (1 << 32) + 3, (1 << 63) + 4],
    illegal_bytes: &[5, 131, 132],
};
