//! CMAC against its published examples, over an AES-128 of this file's own, and against
//! its steps written out over bytes.
//! Follows NIST SP 800-38B, appendix D.1, RFC 4493, section 4, and FIPS 197.

mod cmac_by_bytes;

use second::bytes::{part, Block};
use second::cmac::{chained, cmac, doubled, ended, masked, parted, subkeys, R_128};
use second::random::Random;

/// Multiplication in the field of x^8+x^4+x^3+x+1.
fn times(a: u8, b: u8) -> u8 {
    let mut product = 0u16;
    for bit in 0..8 {
        if b >> bit & 1 == 1 {
            product ^= u16::from(a) << bit;
        }
    }
    for bit in (8..15).rev() {
        if product >> bit & 1 == 1 {
            product ^= 0x11B << (bit - 8);
        }
    }
    product as u8
}

/// FIPS 197, 5.1.1: the inverse, its bits mixed, 63 xored in.
fn substituted(x: u8) -> u8 {
    let y = (0..=255).find(|&y| times(x, y) == 1).unwrap_or(0);
    let turned = [1, 2, 3, 4].map(|bits| y.rotate_left(bits));
    turned.iter().fold(y ^ 0x63, |sum, t| sum ^ t)
}

struct Aes {
    s: Vec<u8>,
    keys: Vec<Block>,
}

impl Aes {
    fn new(key: Block) -> Aes {
        let s: Vec<u8> = (0..=255).map(substituted).collect();
        let mut words: Vec<[u8; 4]> = (0..4).map(|i| part(&key, i)).collect();
        let mut constant = 1;
        for i in 4..44 {
            let mut t = words[i - 1];
            if i % 4 == 0 {
                t.rotate_left(1);
                t = t.map(|byte| s[usize::from(byte)]);
                t[0] ^= constant;
                constant = times(constant, 2);
            }
            words.push(std::array::from_fn(|j| words[i - 4][j] ^ t[j]));
        }
        let keys = words.chunks(4).map(|four| part(&four.concat(), 0));
        let keys = keys.collect();
        Aes { s, keys }
    }

    fn encipher(&self, block: Block) -> Block {
        let mut state = added(block, self.keys[0]);
        for round in 1..=10 {
            state = rows_shifted(state.map(|byte| self.s[usize::from(byte)]));
            if round < 10 {
                state = columns_mixed(state);
            }
            state = added(state, self.keys[round]);
        }
        state
    }
}

fn added(a: Block, b: Block) -> Block {
    std::array::from_fn(|i| a[i] ^ b[i])
}

/// Byte i is in row i % 4 and column i / 4.
fn rows_shifted(state: Block) -> Block {
    std::array::from_fn(|i| state[(i + 4 * (i % 4)) % 16])
}

fn columns_mixed(state: Block) -> Block {
    std::array::from_fn(|i| {
        let below = |rows: usize| state[i / 4 * 4 + (i + rows) % 4];
        times(below(0), 2) ^ times(below(1), 3) ^ below(2) ^ below(3)
    })
}

fn hex(text: &str) -> Vec<u8> {
    let digits: String = text.split_whitespace().collect();
    (0..digits.len() / 2)
        .map(|i| u8::from_str_radix(&digits[2 * i..2 * i + 2], 16).unwrap())
        .collect()
}

fn block(text: &str) -> Block {
    hex(text).try_into().unwrap()
}

#[test]
fn the_aes_is_that_of_fips_197() {
    let aes = Aes::new(block("000102030405060708090a0b0c0d0e0f"));
    let out = aes.encipher(block("00112233445566778899aabbccddeeff"));
    assert_eq!(out, block("69c4e0d86a7b0430d8cdb78070b4c55a"));
}

const KEY: &str = "2b7e151628aed2a6abf7158809cf4f3c";
const MESSAGE: &str = "
    6bc1bee22e409f96e93d7e117393172a ae2d8a571e03ac9c9eb76fac45af8e51
    30c81c46a35ce411e5fbc1191a0a52ef f69f2445df4f9b17ad2b417be66c3710";

const L: &str = "7df76b0c1ab899b33e42f047b91b546f";
const K1: &str = "fbeed618357133667c85e08f7236a8de";
const K2: &str = "f7ddac306ae266ccf90bc11ee46d513b";

/// Length of the message, and its CMAC.
const EXAMPLES: [(usize, &str); 4] = [
    (0, "bb1d6929e95937287fa37d129b756746"),
    (16, "070a16b46b4d4144f79bdd9dd04a287c"),
    (40, "dfa66747de9ae63030ca32611497c827"),
    (64, "51f0bebf7e3b9d92fc49741779363cfe"),
];

#[test]
fn the_subkeys_are_the_published_ones() {
    let aes = Aes::new(block(KEY));
    let e = |x| aes.encipher(x);
    assert_eq!(e([0; 16]), block(L));
    assert_eq!(subkeys(e), [K1, K2].map(block));
    assert_eq!(cmac_by_bytes::subkeys(&e), [L, K1, K2].map(block));
}

#[test]
fn the_examples_are_the_published_ones() {
    let aes = Aes::new(block(KEY));
    let e = |x| aes.encipher(x);
    for (length, expected) in EXAMPLES {
        let message = &hex(MESSAGE)[..length];
        assert_eq!(cmac(e, message), block(expected), "{length}");
        assert_eq!(cmac_by_bytes::cmac(&e, message), block(expected));
    }
}

/// Two functions that are no ciphers, one of them with any first bits of L.
fn functions(mark: u8) -> [Box<dyn Fn(Block) -> Block>; 2] {
    let sum = move |x: Block| {
        let mixed = u128::from_be_bytes(x).wrapping_mul(0x9E37_79B9_7F4A_7C15_F39C_C060_5CED_C835);
        (mixed.rotate_left(41) ^ (u128::from(mark) << 120)).to_be_bytes()
    };
    let forgets = move |x: Block| std::array::from_fn(|i| x[i / 2].wrapping_add(mark) ^ i as u8);
    [Box::new(sum), Box::new(forgets)]
}

#[test]
fn it_is_the_steps_over_bytes_for_any_function_and_message() {
    let random = &mut Random::seeded(91);
    for length in (0..100).chain([1000, 1008]) {
        let message = random.bytes(length);
        for e in functions(random.byte()) {
            assert_eq!(cmac(&e, &message), cmac_by_bytes::cmac(&e, &message));
        }
    }
}

#[test]
fn the_subkeys_are_the_steps_over_bytes_with_each_first_bits_of_l() {
    for mark in 0..=255 {
        for e in functions(mark) {
            let [_, k1, k2] = cmac_by_bytes::subkeys(&e);
            assert_eq!(subkeys(&e), [k1, k2]);
        }
    }
}

#[test]
fn the_constant_is_120_zeros_and_10000111() {
    let bits = format!("{R_128:0128b}");
    assert_eq!(bits, ["0".repeat(120), "10000111".to_string()].concat());
}

#[test]
fn doubling_moves_each_bit_and_the_highest_becomes_the_constant() {
    let of = |number: u128| u128::from_be_bytes(doubled(number.to_be_bytes()));
    assert_eq!(of(0), 0);
    for bit in 0..127 {
        assert_eq!(of(1 << bit), 1 << (bit + 1));
    }
    assert_eq!(of(1 << 127), R_128);
    assert_eq!(of(u128::MAX), (u128::MAX - 1) ^ R_128);
}

#[test]
fn only_the_empty_message_has_an_empty_last_block() {
    for length in 0..100 {
        let message: Vec<u8> = (0..length).collect();
        let (blocks, last) = parted(&message);
        assert_eq!([&blocks.concat(), last].concat(), message);
        assert_eq!(last.is_empty(), length == 0);
        assert!(last.len() <= 16);
    }
}

#[test]
fn a_last_block_is_xored_with_k1_if_complete_and_else_padded_and_xored_with_k2() {
    let aes = Aes::new(block(KEY));
    let e = |x| aes.encipher(x);
    let [k1, k2] = [K1, K2].map(block);
    assert_eq!(masked(e, &[0xAA; 16]), added([0xAA; 16], k1));
    let padded = "aaaaaa80000000000000000000000000";
    assert_eq!(masked(e, &[0xAA; 3]), added(block(padded), k2));
    let padded = "aaaaaaaaaaaaaaaaaaaaaaaaaaaaaa80";
    assert_eq!(masked(e, &[0xAA; 15]), added(block(padded), k2));
    let padded = "80000000000000000000000000000000";
    assert_eq!(masked(e, &[]), added(block(padded), k2));
}

#[test]
fn chaining_may_stop_and_go_on_after_any_block() {
    let aes = Aes::new(block(KEY));
    let e = |x| aes.encipher(x);
    let message = hex(MESSAGE);
    let (blocks, last) = parted(&message);
    for (front, back) in (0..=3).map(|n| blocks.split_at(n)) {
        let chain = chained(e, chained(e, [0; 16], front), back);
        assert_eq!(ended(e, chain, last), block(EXAMPLES[3].1));
    }
}
