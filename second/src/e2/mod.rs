//! E2: one block in either direction.
//! Follows document 001, 'Algorithm of enciphering'; deciphering undoes the
//! rounds and the outer steps in the reverse order instead of reordering keys.

pub mod functions;
pub mod keys;

use crate::bytes::{part, xor, Block};
use functions::{bp, bp_inverse, brl, divided, multiplied, p, s_of};

const ROUNDS: usize = 12;

fn round_key(round_keys: &[u8], number: usize) -> Block {
    part(round_keys, number - 1)
}

/// F(R, k) = BRL(S(P(S(R xor kl)) xor kr)).
pub fn f(r: [u8; 8], key: Block) -> [u8; 8] {
    let inner = p(s_of(xor(r, part(&key, 0))));
    brl(s_of(xor(inner, part(&key, 1))))
}

/// One Feistel step on L || R, without the exchange.
fn mixed(block: Block, key: Block) -> Block {
    let (l, r) = (part(&block, 0), part(&block, 1));
    joined(xor(l, f(r, key)), r)
}

fn exchanged(block: Block) -> Block {
    joined(part(&block, 1), part(&block, 0))
}

fn joined(l: [u8; 8], r: [u8; 8]) -> Block {
    std::array::from_fn(|i| if i < 8 { l[i] } else { r[i - 8] })
}

pub fn encipher(round_keys: &[u8], block: Block) -> Block {
    let k = |number| round_key(round_keys, number);
    let begun = bp(multiplied(xor(block, k(13)), k(14)));
    let middle = (1..ROUNDS).fold(begun, |m, i| exchanged(mixed(m, k(i))));
    let last = mixed(middle, k(ROUNDS));
    xor(divided(bp_inverse(last), k(15)), k(16))
}

pub fn decipher(round_keys: &[u8], block: Block) -> Block {
    let k = |number| round_key(round_keys, number);
    let last = bp(multiplied(xor(block, k(16)), k(15)));
    let middle = mixed(last, k(ROUNDS));
    let begun = (1..ROUNDS)
        .rev()
        .fold(middle, |m, i| mixed(exchanged(m), k(i)));
    xor(divided(bp_inverse(begun), k(14)), k(13))
}
