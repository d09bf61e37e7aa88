//! Blocks of bytes: xor, and the parts of a longer run of bytes.
//! Big-endian throughout, as document 01, 'What is built', has it.

/// One cipher block.
pub type Block = [u8; 16];

pub fn xor<const N: usize>(a: [u8; N], b: [u8; N]) -> [u8; N] {
    std::array::from_fn(|i| a[i] ^ b[i])
}

/// Part number `index` of the parts of N bytes, counted from 0.
pub fn part<const N: usize>(bytes: &[u8], index: usize) -> [u8; N] {
    std::array::from_fn(|i| bytes[N * index + i])
}

/// The block as four big-endian words.
pub fn words(block: Block) -> [u32; 4] {
    std::array::from_fn(|i| u32::from_be_bytes(part(&block, i)))
}

pub fn from_words(words: [u32; 4]) -> Block {
    let bytes = words.map(u32::to_be_bytes);
    std::array::from_fn(|i| bytes[i / 4][i % 4])
}
