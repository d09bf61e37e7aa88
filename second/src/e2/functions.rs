//! E2: the functions that the rounds and the key set-up are made of.
//! Follows document 001 before 'Computation of the round subkeys', with the
//! repairs of document 01, 'E2'.

use crate::bytes::{from_words, words, Block};
use crate::field::Field;

pub const FIELD: Field = Field::modulo(0b1_0001_1011);

fn s_by_rule(x: u8) -> u8 {
    FIELD.power(x, 127).wrapping_mul(97).wrapping_add(225)
}

thread_local! {
    static TABLE: [u8; 256] = std::array::from_fn(|x| s_by_rule(x as u8));
}

pub fn s(x: u8) -> u8 {
    TABLE.with(|table| table[usize::from(x)])
}

/// S: s on each of eight bytes.
pub fn s_of(x: [u8; 8]) -> [u8; 8] {
    x.map(s)
}

/// The stepwise P: (7, 3) is y7 := y7 xor y3, and each step sees the values already renewed.
const P_STEPS: [[(usize, usize); 4]; 4] = [
    [(7, 3), (6, 2), (5, 1), (4, 0)],
    [(3, 5), (2, 4), (1, 7), (0, 6)],
    [(7, 2), (6, 1), (5, 0), (4, 3)],
    [(3, 7), (2, 6), (1, 5), (0, 4)],
];

pub fn p(x: [u8; 8]) -> [u8; 8] {
    let mut y = x;
    for &(renewed, added) in P_STEPS.iter().flatten() {
        y[renewed] ^= y[added];
    }
    y
}

pub fn brl(x: [u8; 8]) -> [u8; 8] {
    std::array::from_fn(|i| x[(i + 1) % 8])
}

pub fn bp(x: Block) -> Block {
    std::array::from_fn(|j| x[5 * j % 16])
}

/// BP undone: the byte at j goes back to the place it came from.
pub fn bp_inverse(x: Block) -> Block {
    let mut y = [0; 16];
    for (j, byte) in x.into_iter().enumerate() {
        y[5 * j % 16] = byte;
    }
    y
}

/// The inverse of an odd z modulo 2^32: each step doubles the number of right low
/// bits, and z itself is right in the lowest three.
pub fn odd_inverse(z: u32) -> u32 {
    (0..4).fold(z, |x, _| {
        x.wrapping_mul(2u32.wrapping_sub(z.wrapping_mul(x)))
    })
}

/// X times Y word by word, each word of Y made odd.
pub fn multiplied(x: Block, y: Block) -> Block {
    on_words(x, y, |x, y| x.wrapping_mul(y | 1))
}

/// X divided by Y word by word, each word of Y made odd.
pub fn divided(x: Block, y: Block) -> Block {
    on_words(x, y, |x, y| x.wrapping_mul(odd_inverse(y | 1)))
}

fn on_words(x: Block, y: Block, f: fn(u32, u32) -> u32) -> Block {
    let (x, y) = (words(x), words(y));
    from_words(std::array::from_fn(|i| f(x[i], y[i])))
}
