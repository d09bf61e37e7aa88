//! E2 and both Noekeons once more, assignment by assignment as printed, against the
//! library.
//! Follows document 001, 'Algorithm of enciphering', with the repairs of document 01,
//! document 003, and document 02, request 2; none of them has a vector.

use second::bytes::{from_words, part, words, Block};
use second::random::Random;
use second::{e2, noekeon::DESIGNERS, noekeon::EARLIER};

/// 001's matrix of P, a row to a byte, the last row repaired.
const P_ROWS: [u8; 8] = [
    0b01111110, 0b10110111, 0b11011011, 0b11101101, 0b11011100, 0b11100110, 0b01110011, 0b10111001,
];

fn p(x: [u8; 8]) -> [u8; 8] {
    let mut y = [0; 8];
    for (row, bits) in P_ROWS.iter().enumerate() {
        for (column, byte) in x.iter().enumerate() {
            if bits >> (7 - column) & 1 == 1 {
                y[row] ^= byte;
            }
        }
    }
    y
}

fn f(r: &[u8], k: &[u8]) -> [u8; 8] {
    let mut inner = [0; 8];
    for i in 0..8 {
        inner[i] = e2::functions::s(r[i] ^ k[i]);
    }
    let mut out = p(inner);
    for i in 0..8 {
        out[i] = e2::functions::s(out[i] ^ k[8 + i]);
    }
    [
        out[1], out[2], out[3], out[4], out[5], out[6], out[7], out[0],
    ]
}

fn times_odd(x: u32, y: u32, power: u32) -> u32 {
    let odd = if y % 2 == 1 { y } else { y + 1 };
    x.wrapping_mul(odd.wrapping_pow(power))
}

fn e2_line_by_line(round_keys: &[u8], block: Block) -> Block {
    let k = |number: usize| part::<16>(round_keys, number - 1);
    let mut m: Block = std::array::from_fn(|i| block[i] ^ k(13)[i]);
    let (x, y) = (words(m), words(k(14)));
    let multiplied = from_words(std::array::from_fn(|i| times_odd(x[i], y[i], 1)));
    for j in 0..16 {
        m[j] = multiplied[[0, 5, 10, 15, 4, 9, 14, 3, 8, 13, 2, 7, 12, 1, 6, 11][j]];
    }
    let (mut l, mut r) = (m[..8].to_vec(), m[8..].to_vec());
    for i in 1..=12 {
        let mixed = f(&r, &k(i));
        for (byte, other) in l.iter_mut().zip(mixed) {
            *byte ^= other;
        }
        if i < 12 {
            (l, r) = (r, l);
        }
    }
    let joined = [l, r].concat();
    let back: Block = std::array::from_fn(|j| joined[13 * j % 16]);
    let (x, y) = (words(back), words(k(15)));
    let long = (1 << 31) - 1;
    let divided = from_words(std::array::from_fn(|i| times_odd(x[i], y[i], long)));
    std::array::from_fn(|i| divided[i] ^ k(16)[i])
}

fn theta_earlier(k: [u32; 4], p: &mut [u32; 4]) {
    let mut t = p[0] ^ p[2];
    t = t ^ (t >> 8) ^ (t << 8);
    p[1] ^= t;
    p[3] ^= t;
    for i in 0..4 {
        p[i] ^= k[i];
    }
    t = p[1] ^ p[3];
    t = t ^ (t >> 8) ^ (t << 8);
    p[0] ^= t;
    p[2] ^= t;
}

fn theta_designers(k: [u32; 4], p: &mut [u32; 4]) {
    let mut t = p[0] ^ p[2];
    t = t ^ t.rotate_right(8) ^ t.rotate_left(8);
    p[1] ^= t;
    p[3] ^= t;
    for i in 0..4 {
        p[i] ^= k[i];
    }
    t = p[1] ^ p[3];
    t = t ^ t.rotate_right(8) ^ t.rotate_left(8);
    p[0] ^= t;
    p[2] ^= t;
}

fn gamma(p: &mut [u32; 4]) {
    p[1] ^= !(p[2] | p[3]);
    p[0] ^= p[1] & p[2];
    p.swap(0, 3);
    p[2] = p[0] ^ p[1] ^ p[2] ^ p[3];
    p[1] ^= !(p[2] | p[3]);
    p[0] ^= p[1] & p[2];
}

fn pi1_gamma_pi2(p: &mut [u32; 4]) {
    p[1] = p[1].rotate_left(1);
    p[2] = p[2].rotate_left(5);
    p[3] = p[3].rotate_left(2);
    gamma(p);
    p[1] = p[1].rotate_right(1);
    p[2] = p[2].rotate_right(5);
    p[3] = p[3].rotate_right(2);
}

fn earlier_line_by_line(key: Block, block: Block) -> Block {
    let (k, mut p) = (words(key), words(block));
    for _ in 1..=16 {
        theta_earlier(k, &mut p);
        pi1_gamma_pi2(&mut p);
    }
    theta_earlier(k, &mut p);
    from_words(p)
}

/// Request 2's list.
const CONSTANTS: [u32; 17] = [
    0x80, 0x1B, 0x36, 0x6C, 0xD8, 0xAB, 0x4D, 0x9A, 0x2F, 0x5E, 0xBC, 0x63, 0xC6, 0x97, 0x35, 0x6A,
    0xD4,
];

fn designers_line_by_line(key: Block, block: Block) -> Block {
    let (k, mut p) = (words(key), words(block));
    for constant in &CONSTANTS[..16] {
        p[0] ^= constant;
        theta_designers(k, &mut p);
        pi1_gamma_pi2(&mut p);
    }
    p[0] ^= CONSTANTS[16];
    theta_designers(k, &mut p);
    from_words(p)
}

/// 003's own algorithm with theta(0, K) in the place of K, and the constants as request 2
/// runs them: 16 after the first theta, down to 0 after the last.
fn designers_backwards_line_by_line(key: Block, block: Block) -> Block {
    let (mut k, mut p) = (words(key), words(block));
    theta_designers([0; 4], &mut k);
    for i in (1..=16).rev() {
        theta_designers(k, &mut p);
        p[0] ^= CONSTANTS[i];
        pi1_gamma_pi2(&mut p);
    }
    theta_designers(k, &mut p);
    p[0] ^= CONSTANTS[0];
    from_words(p)
}

#[test]
fn e2_enciphers_as_printed() {
    let random = &mut Random::seeded(81);
    for _ in 0..100 {
        let (round_keys, block) = (random.bytes(256), random.array());
        let printed = e2_line_by_line(&round_keys, block);
        assert_eq!(e2::encipher(&round_keys, block), printed);
    }
}

#[test]
fn the_earlier_noekeon_enciphers_as_printed() {
    let random = &mut Random::seeded(82);
    for _ in 0..100 {
        let (key, block) = (random.array(), random.array());
        let printed = earlier_line_by_line(key, block);
        assert_eq!(EARLIER.encipher(key, block), printed);
    }
}

#[test]
fn the_designers_noekeon_works_as_printed_in_both_directions() {
    let random = &mut Random::seeded(83);
    for _ in 0..100 {
        let (key, block) = (random.array(), random.array());
        let printed = designers_line_by_line(key, block);
        assert_eq!(DESIGNERS.encipher(key, block), printed);
        let printed = designers_backwards_line_by_line(key, block);
        assert_eq!(DESIGNERS.decipher(key, block), printed);
    }
}
