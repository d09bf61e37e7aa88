//! E2: key set-up.
//! Follows document 001, 'Computation of the round subkeys', with the repaired
//! G and the missing K2 and K3 of document 01, 'E2'.

use super::functions::{p, s_of};
use crate::bytes::{part, xor};

const CONSTANT: [u8; 8] = [0x01, 0x23, 0x45, 0x67, 0x89, 0xAB, 0xCD, 0xEF];

type Quarters = [[u8; 8]; 4];

fn p_of_s(x: [u8; 8]) -> [u8; 8] {
    p(s_of(x))
}

/// S on the constant as often as `times` says.
fn s_repeated(times: usize) -> [u8; 8] {
    (0..times).fold(CONSTANT, |x, _| s_of(x))
}

/// K0 to K3, the missing ones filled in.
pub fn padded(key: &[u8]) -> Quarters {
    std::array::from_fn(|i| {
        if 8 * i < key.len() {
            part(key, i)
        } else {
            s_repeated(i + 1)
        }
    })
}

/// G(X, U) = (L, Y, V) with V = L3.
pub fn g(x: Quarters, u: [u8; 8]) -> (Quarters, Quarters, [u8; 8]) {
    let y = x.map(p_of_s);
    let mut l = [[0; 8]; 4];
    let mut before = u;
    for i in 0..4 {
        l[i] = xor(p_of_s(before), y[i]);
        before = l[i];
    }
    (l, y, before)
}

/// k1 to k16 in number order, 16 bytes each, for a key of legal length.
pub fn set_up(key: &[u8]) -> Vec<u8> {
    let (_, mut y, mut u) = g(padded(key), CONSTANT);
    let mut q = Vec::new();
    for _ in 0..8 {
        let l;
        (l, y, u) = g(y, u);
        q.extend(l);
    }
    let key_byte = |number: usize, i: usize| q[2 * i + number % 2][number / 2];
    (0..16)
        .flat_map(|number| (0..16).map(move |i| (number, i)))
        .map(|(number, i)| key_byte(number, i))
        .collect()
}
