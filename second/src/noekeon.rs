//! Noekeon with a direct key under two rules: one block in either direction.
//! Follows document 003, with document 01, 'Noekeon', for the earlier rule and document
//! 02, request 2, for the designers'.
//! Deciphering undoes the steps of enciphering from the last to the first, with the
//! printed inverse of theta.

use crate::bytes::{from_words, words, Block};
use crate::field::Field;

const ROUNDS: usize = 16;
const FIELD: Field = Field::modulo(0x11B);

pub type Words = [u32; 4];

/// All that the two rules differ in: S, and what is xored in before each theta.
#[derive(Clone, Copy)]
pub struct Rule {
    pub s: fn(u32) -> u32,
    pub constants: [u8; ROUNDS + 1],
}

pub const DESIGNERS: Rule = Rule {
    s: s_with_rotations,
    constants: doubled_from_80(),
};

pub const EARLIER: Rule = Rule {
    s: s_with_plain_shifts,
    constants: [0; ROUNDS + 1],
};

/// A rotation by 8 puts each byte in the place of its neighbour, around the ring.
fn s_with_rotations(t: u32) -> u32 {
    let ring = t.to_be_bytes();
    u32::from_be_bytes(std::array::from_fn(|i| {
        ring[i] ^ ring[(i + 1) % 4] ^ ring[(i + 3) % 4]
    }))
}

fn s_with_plain_shifts(t: u32) -> u32 {
    t ^ (t >> 8) ^ (t << 8)
}

/// Request 2 prints them as a list; each is twice the one before.
const fn doubled_from_80() -> [u8; ROUNDS + 1] {
    let mut constants = [0x80; ROUNDS + 1];
    let mut i = 1;
    while i <= ROUNDS {
        constants[i] = FIELD.times(2, constants[i - 1]);
        i += 1;
    }
    constants
}

impl Rule {
    pub fn theta(self, key: Words, p: Words) -> Words {
        self.add_odd(add_key(key, self.add_even(p)))
    }

    pub fn theta_inverse(self, key: Words, p: Words) -> Words {
        self.add_even(add_key(key, self.add_odd(p)))
    }

    fn add_even(self, p: Words) -> Words {
        let t = (self.s)(p[0] ^ p[2]);
        [p[0], p[1] ^ t, p[2], p[3] ^ t]
    }

    fn add_odd(self, p: Words) -> Words {
        let t = (self.s)(p[1] ^ p[3]);
        [p[0] ^ t, p[1], p[2] ^ t, p[3]]
    }

    /// The first word with constant i xored in.
    pub fn add_constant(self, i: usize, p: Words) -> Words {
        [p[0] ^ u32::from(self.constants[i]), p[1], p[2], p[3]]
    }

    pub fn encipher(self, key: Block, block: Block) -> Block {
        let key = words(key);
        let theta = |i, p| self.theta(key, self.add_constant(i, p));
        let p = (0..ROUNDS).fold(words(block), |p, i| pi2(gamma(pi1(theta(i, p)))));
        from_words(theta(ROUNDS, p))
    }

    /// Gamma undoes itself, and pi1 and pi2 undo each other.
    pub fn decipher(self, key: Block, block: Block) -> Block {
        let key = words(key);
        let theta_undone = |i, p| self.add_constant(i, self.theta_inverse(key, p));
        let p = theta_undone(ROUNDS, words(block));
        let rounds = (0..ROUNDS).rev();
        from_words(rounds.fold(p, |p, i| theta_undone(i, pi2(gamma(pi1(p))))))
    }
}

fn add_key(key: Words, p: Words) -> Words {
    std::array::from_fn(|i| p[i] ^ key[i])
}

pub fn gamma(p: Words) -> Words {
    let [p0, p1, p2, p3] = half_gamma(p);
    let (p0, p3) = (p3, p0);
    half_gamma([p0, p1, p0 ^ p1 ^ p2 ^ p3, p3])
}

fn half_gamma([p0, p1, p2, p3]: Words) -> Words {
    let p1 = p1 ^ !(p2 | p3);
    [p0 ^ (p1 & p2), p1, p2, p3]
}

pub fn pi1(p: Words) -> Words {
    [
        p[0],
        p[1].rotate_left(1),
        p[2].rotate_left(5),
        p[3].rotate_left(2),
    ]
}

pub fn pi2(p: Words) -> Words {
    [
        p[0],
        p[1].rotate_right(1),
        p[2].rotate_right(5),
        p[3].rotate_right(2),
    ]
}
