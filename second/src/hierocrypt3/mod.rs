//! Hierocrypt-3: one block in either direction.
//! Follows document 002, sections 2.1, 2.2, 3.1 and 3.3; deciphering undoes
//! each step of enciphering in the reverse order.

pub mod keys;
pub mod operations;

use crate::bytes::{part, xor, Block};
use operations::{mds_h, mds_h_inverse, mds_l, mds_l_inverse, s, s_inverse};

/// T for a legal key length in bytes.
pub fn rounds(key_length: usize) -> usize {
    key_length / 8 + 4
}

/// XS of section 3.3: the second half of the key goes in before the outer S.
pub fn xs(x: Block, key: &[u8; 32]) -> Block {
    let inner = xor(x, part(key, 0)).map(s);
    xor(big_mds_l(inner), part(key, 1)).map(s)
}

pub fn xs_inverse(x: Block, key: &[u8; 32]) -> Block {
    let inner = xor(x.map(s_inverse), part(key, 1));
    xor(big_mds_l_inverse(inner).map(s_inverse), part(key, 0))
}

pub fn rho(x: Block, key: &[u8; 32]) -> Block {
    mds_h(xs(x, key))
}

pub fn rho_inverse(x: Block, key: &[u8; 32]) -> Block {
    xs_inverse(mds_h_inverse(x), key)
}

fn big_mds_l(x: Block) -> Block {
    on_columns(x, mds_l)
}

fn big_mds_l_inverse(x: Block) -> Block {
    on_columns(x, mds_l_inverse)
}

fn on_columns(x: Block, f: fn([u8; 4]) -> [u8; 4]) -> Block {
    let columns: [[u8; 4]; 4] = std::array::from_fn(|i| f(part(&x, i)));
    std::array::from_fn(|i| columns[i / 4][i % 4])
}

pub fn encipher(round_keys: &[u8], rounds: usize, block: Block) -> Block {
    let key = |t: usize| part::<32>(round_keys, t - 1);
    let x = (1..rounds).fold(block, |x, t| rho(x, &key(t)));
    xor(xs(x, &key(rounds)), part(&key(rounds + 1), 0))
}

pub fn decipher(round_keys: &[u8], rounds: usize, block: Block) -> Block {
    let key = |t: usize| part::<32>(round_keys, t - 1);
    let x = xs_inverse(xor(block, part(&key(rounds + 1), 0)), &key(rounds));
    (1..rounds).rev().fold(x, |x, t| rho_inverse(x, &key(t)))
}
