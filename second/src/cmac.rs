//! CMAC over any block function.
//! Follows NIST SP 800-38B, sections 5.3, 6.1 and 6.2.

use crate::bytes::{part, xor, Block};
use crate::cbc;

/// The constant for blocks of 128 bits: 120 zeros, then 10000111.
pub const R_128: u128 = 0b1000_0111;

/// The block shifted left by one bit, and the constant xored in where a one falls out.
pub fn doubled(block: Block) -> Block {
    let x = u128::from_be_bytes(block);
    let falls_out = x >> 127;
    ((x << 1) ^ (falls_out * R_128)).to_be_bytes()
}

/// K1 and K2: L = E(0), doubled once and doubled twice.
pub fn subkeys(e: impl Fn(Block) -> Block) -> [Block; 2] {
    let k1 = doubled(e([0; 16]));
    [k1, doubled(k1)]
}

/// The blocks before the last one, and the last: 1 to 16 bytes, or none of none.
pub fn parted(message: &[u8]) -> (Vec<Block>, &[u8]) {
    let before = message.len().saturating_sub(1) / 16;
    let (blocks, last) = message.split_at(16 * before);
    let blocks = blocks.chunks(16).map(|block| part(block, 0));
    (blocks.collect(), last)
}

/// The chain after these blocks: C(i) = E(C(i-1) xor M(i)).
pub fn chained(e: impl Fn(Block) -> Block, chain: Block, blocks: &[Block]) -> Block {
    let c = cbc::encipher(e, chain, blocks);
    c.last().copied().unwrap_or(chain)
}

/// M(n): the last block xor K1 if it's complete, else padded and xor K2.
pub fn masked(e: impl Fn(Block) -> Block, last: &[u8]) -> Block {
    let [k1, k2] = subkeys(e);
    match Block::try_from(last) {
        Ok(complete) => xor(complete, k1),
        Err(_) => xor(padded(last), k2),
    }
}

/// A one and zeros behind the bytes.
fn padded(last: &[u8]) -> Block {
    part(&[last, &[0x80], &[0; 15]].concat(), 0)
}

/// C(n), from C(n-1) and the last block: the CMAC.
pub fn ended(e: impl Fn(Block) -> Block, chain: Block, last: &[u8]) -> Block {
    e(xor(chain, masked(&e, last)))
}

/// The CMAC of a whole message, with C(0) = 0.
pub fn cmac(e: impl Fn(Block) -> Block, message: &[u8]) -> Block {
    let (blocks, last) = parted(message);
    let chain = chained(&e, [0; 16], &blocks);
    ended(&e, chain, last)
}
