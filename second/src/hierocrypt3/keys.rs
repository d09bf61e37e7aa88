//! Hierocrypt-3: key set-up.
//! Follows document 002, sections 2.3 to 2.3.4, with the constants and the
//! repaired inverse step of document 01, 'Hierocrypt-3'.

use super::operations::{f_sigma, m5e, mb3, p_n, p_n_inverse};
use super::rounds;
use crate::bytes::{part, xor};

/// An intermediate key: Z1 to Z4.
pub type Intermediate = [[u8; 8]; 4];

pub const H: [u32; 4] = [0x5A827999, 0x6ED9EBA1, 0x8F1BBCDC, 0xCA62C1D6];

/// G0(0) to G0(5) as pairs of indices into H.
const G0: [(usize, usize); 6] = [(3, 0), (2, 1), (1, 3), (0, 2), (2, 3), (1, 0)];

fn pair(high: usize, low: usize) -> [u8; 8] {
    (u64::from(H[high]) << 32 | u64::from(H[low])).to_be_bytes()
}

pub fn g0(index: usize) -> [u8; 8] {
    pair(G0[index].0, G0[index].1)
}

/// The G0 indices of rows 1 to T+1 of 002's tables 1 to 3.
pub fn rows(key_length: usize) -> &'static [usize] {
    match key_length {
        16 => &[0, 1, 2, 3, 3, 2, 1],
        24 => &[1, 0, 3, 2, 2, 3, 0, 1],
        _ => &[4, 0, 2, 1, 3, 3, 1, 2, 0],
    }
}

pub fn turn(key_length: usize) -> usize {
    if key_length == 32 {
        5
    } else {
        4
    }
}

pub fn padded(key: &[u8]) -> Intermediate {
    match key.len() {
        16 => [part(key, 0), part(key, 1), part(key, 0), pair(3, 2)],
        24 => [part(key, 0), part(key, 1), part(key, 2), pair(2, 3)],
        _ => [part(key, 0), part(key, 1), part(key, 2), part(key, 3)],
    }
}

/// The step that the pre-whitening and sigma share: W stands for Z3 and Z4 after P^(32).
fn advanced(z1: [u8; 8], z2: [u8; 8], w: [[u8; 8]; 2], g: [u8; 8]) -> Intermediate {
    let z3 = xor(m5e(w[0]), g);
    [z2, xor(z1, f_sigma(xor(z2, z3))), z3, m5e(w[1])]
}

pub fn pre_whitening(z: Intermediate) -> Intermediate {
    advanced(z[0], z[1], [z[2], z[3]], g0(5))
}

pub fn sigma(z: Intermediate, g: [u8; 8]) -> Intermediate {
    let w = split(p_n(joined(z[2], z[3])));
    advanced(z[0], z[1], w, g)
}

/// W1 and W2 of an inverse step: the constant goes in before M_B3.
pub fn w_of_inverse_step(z: Intermediate, g: [u8; 8]) -> [[u8; 8]; 2] {
    [mb3(xor(z[2], g)), mb3(z[3])]
}

pub fn sigma_inverse(z: Intermediate, g: [u8; 8]) -> Intermediate {
    let w = w_of_inverse_step(z, g);
    let z1 = xor(z[1], f_sigma(xor(z[0], z[2])));
    let [z3, z4] = split(p_n_inverse(joined(w[0], w[1])));
    [z1, z[0], z3, z4]
}

fn joined(a: [u8; 8], b: [u8; 8]) -> [u8; 16] {
    std::array::from_fn(|i| if i < 8 { a[i] } else { b[i - 8] })
}

fn split(x: [u8; 16]) -> [[u8; 8]; 2] {
    [part(&x, 0), part(&x, 1)]
}

/// Z(0) to Z(T+1), the ciphertext side by the recursion rule's inverse step.
pub fn intermediate_keys(key: &[u8]) -> Vec<Intermediate> {
    let mut keys = vec![pre_whitening(padded(key))];
    for (before, &row) in rows(key.len()).iter().enumerate() {
        let step = if before < turn(key.len()) {
            sigma
        } else {
            sigma_inverse
        };
        keys.push(step(keys[before], g0(row)));
    }
    keys
}

fn plaintext_side(before: Intermediate, z: Intermediate) -> [[u8; 8]; 4] {
    let v = f_sigma(xor(before[1], z[2]));
    [
        xor(before[0], v),
        xor(z[2], v),
        xor(z[3], v),
        xor(before[1], z[3]),
    ]
}

fn ciphertext_side(before: Intermediate, z: Intermediate, g: [u8; 8]) -> [[u8; 8]; 4] {
    let v = f_sigma(xor(before[0], before[2]));
    let w = w_of_inverse_step(before, g);
    [
        xor(z[0], before[2]),
        xor(w[0], v),
        xor(w[1], v),
        xor(before[0], w[1]),
    ]
}

/// Round keys 1 to T+1, 32 bytes each, for a key of legal length.
pub fn set_up(key: &[u8]) -> Vec<u8> {
    let z = intermediate_keys(key);
    let round_key = |t: usize| {
        if t <= turn(key.len()) {
            plaintext_side(z[t - 1], z[t])
        } else {
            ciphertext_side(z[t - 1], z[t], g0(rows(key.len())[t - 1]))
        }
    };
    let parts = (1..=rounds(key.len()) + 1).flat_map(round_key);
    parts.flatten().collect()
}
