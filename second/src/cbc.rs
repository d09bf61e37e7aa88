//! CBC over any block permutation.
//! Follows document 01, 'Refusal numbers', its last paragraph.

use crate::bytes::{xor, Block};

/// C(1), C(2) and on: C(j) = E(P(j) xor C(j-1)).
pub fn encipher(e: impl Fn(Block) -> Block, c0: Block, plain: &[Block]) -> Vec<Block> {
    let mut c = vec![c0];
    for (j, &block) in plain.iter().enumerate() {
        c.push(e(xor(block, c[j])));
    }
    c.split_off(1)
}

/// P(1), P(2) and on: P(j) = D(C(j)) xor C(j-1).
pub fn decipher(d: impl Fn(Block) -> Block, c0: Block, cipher: &[Block]) -> Vec<Block> {
    let before = std::iter::once(&c0).chain(cipher);
    let pairs = cipher.iter().zip(before);
    pairs.map(|(&c, &before)| xor(d(c), before)).collect()
}
