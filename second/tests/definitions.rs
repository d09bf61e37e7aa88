//! Where the documents define a thing twice, both definitions agree.
//! Follows document 001, document 002, sections 2.3 and 3, document 003, document 01
//! for the repairs, and document 02, request 2.

use second::bytes::{from_words, part, words, xor, Block};
use second::hierocrypt3::keys::{g0, intermediate_keys, rows, turn, Intermediate};
use second::hierocrypt3::operations::{self as h3, f_sigma, p_n};
use second::noekeon::{self, DESIGNERS, EARLIER};
use second::random::Random;
use second::{e2, hierocrypt3};

const E2_P_REPAIRED: [[u8; 8]; 8] = [
    [0, 1, 1, 1, 1, 1, 1, 0],
    [1, 0, 1, 1, 0, 1, 1, 1],
    [1, 1, 0, 1, 1, 0, 1, 1],
    [1, 1, 1, 0, 1, 1, 0, 1],
    [1, 1, 0, 1, 1, 1, 0, 0],
    [1, 1, 1, 0, 0, 1, 1, 0],
    [0, 1, 1, 1, 0, 0, 1, 1],
    [1, 0, 1, 1, 1, 0, 0, 1],
];
const E2_P_LAST_ROW_PRINTED: [u8; 8] = [1, 0, 1, 1, 1, 0, 0, 0];

fn row_times(row: &[u8; 8], x: &[u8; 8]) -> u8 {
    (0..8).filter(|&i| row[i] == 1).fold(0, |sum, i| sum ^ x[i])
}

#[test]
fn e2_p_by_steps_is_the_repaired_matrix() {
    let random = &mut Random::seeded(11);
    for _ in 0..200 {
        let x = random.array();
        let by_matrix = E2_P_REPAIRED.map(|row| row_times(&row, &x));
        assert_eq!(e2::functions::p(x), by_matrix);
    }
    let last = [0, 0, 0, 0, 0, 0, 0, 1];
    let printed = row_times(&E2_P_LAST_ROW_PRINTED, &last);
    assert_ne!(e2::functions::p(last)[7], printed);
}

#[test]
fn e2_inverse_by_doubling_is_the_long_power() {
    let random = &mut Random::seeded(12);
    for z in (0..200)
        .map(|_| random.number() as u32 | 1)
        .chain([1, 3, u32::MAX])
    {
        assert_eq!(e2::functions::odd_inverse(z), long_power(z));
        assert_eq!(e2::functions::odd_inverse(z).wrapping_mul(z), 1);
    }
}

/// z^(2^31 - 1): 31 ones in the exponent.
fn long_power(z: u32) -> u32 {
    (0..31).fold(1u32, |power, _| power.wrapping_mul(power).wrapping_mul(z))
}

#[test]
fn e2_deciphers_with_the_same_algorithm_and_the_keys_of_001_in_their_order() {
    let random = &mut Random::seeded(13);
    let order = [12, 11, 10, 9, 8, 7, 6, 5, 4, 3, 2, 1, 16, 15, 14, 13];
    for _ in 0..50 {
        let round_keys = random.bytes(256);
        let reordered: Vec<u8> = order
            .iter()
            .flat_map(|&number| part::<16>(&round_keys, number - 1))
            .collect();
        let block = random.array();
        assert_eq!(
            e2::decipher(&round_keys, block),
            e2::encipher(&reordered, block)
        );
    }
}

#[test]
fn e2_bp_inverse_is_the_printed_one() {
    let x: Block = std::array::from_fn(|i| i as u8);
    let printed = [0, 13, 10, 7, 4, 1, 14, 11, 8, 5, 2, 15, 12, 9, 6, 3];
    assert_eq!(e2::functions::bp_inverse(x), printed);
    assert_eq!(e2::functions::bp_inverse(e2::functions::bp(x)), x);
}

#[test]
fn e2_missing_quarters_are_s_three_and_four_times() {
    let g = [0x01, 0x23, 0x45, 0x67, 0x89, 0xab, 0xcd, 0xef];
    let s = e2::functions::s_of;
    let three = s(s(s(g)));
    let random = &mut Random::seeded(14);
    let (short, middle) = (random.bytes(16), random.bytes(24));
    assert_eq!(e2::keys::padded(&short)[2..], [three, s(three)]);
    assert_eq!(e2::keys::padded(&middle)[2], middle[16..24]);
    assert_eq!(e2::keys::padded(&middle)[3], s(three));
    let filled = [&short[..], &three, &s(three)].concat();
    assert_eq!(e2::keys::set_up(&short), e2::keys::set_up(&filled));
}

/// The loops of 001 for the round keys once more, with L1 to L3 taking Y in.
#[test]
fn e2_round_keys_by_the_loops_of_001() {
    let random = &mut Random::seeded(15);
    let key = random.bytes(32);
    let ps = |x: [u8; 8]| e2::functions::p(e2::functions::s_of(x));
    let mut x: [[u8; 8]; 4] = std::array::from_fn(|i| part(&key, i));
    let mut v = [0x01, 0x23, 0x45, 0x67, 0x89, 0xab, 0xcd, 0xef];
    let mut q = Vec::new();
    for turn in 0..9 {
        let y = x.map(ps);
        let l0 = xor(y[0], ps(v));
        let l1 = xor(y[1], ps(l0));
        let l2 = xor(y[2], ps(l1));
        let l3 = xor(y[3], ps(l2));
        if turn > 0 {
            q.extend([l0, l1, l2, l3]);
        }
        (x, v) = (y, l3);
    }
    let round_keys = e2::keys::set_up(&key);
    for p in 0..8 {
        for i in 0..16 {
            assert_eq!(round_keys[16 * (2 * p) + i], q[2 * i][p]);
            assert_eq!(round_keys[16 * (2 * p + 1) + i], q[2 * i + 1][p]);
        }
    }
}

/// Without constants the algorithm is the same in both directions.
#[test]
fn the_earlier_noekeon_deciphers_with_theta_of_zero_and_k_in_the_place_of_k() {
    let random = &mut Random::seeded(16);
    for _ in 0..50 {
        let (key, block): (Block, Block) = (random.array(), random.array());
        let other_key = from_words(EARLIER.theta([0; 4], words(key)));
        let other_road = EARLIER.encipher(other_key, block);
        assert_eq!(EARLIER.decipher(key, block), other_road);
    }
}

#[test]
fn noekeon_steps_undo_each_other_as_003_notes() {
    let random = &mut Random::seeded(17);
    for _ in 0..50 {
        let (key, p) = (words(random.array()), words(random.array()));
        for rule in [DESIGNERS, EARLIER] {
            let theta = rule.theta(key, p);
            assert_eq!(rule.theta_inverse(key, theta), p);
            let other_key = rule.theta([0; 4], key);
            assert_eq!(rule.theta(other_key, theta), p);
        }
        assert_eq!(noekeon::gamma(noekeon::gamma(p)), p);
        assert_eq!(noekeon::pi2(noekeon::pi1(p)), p);
        assert_eq!(noekeon::pi1(noekeon::pi2(p)), p);
    }
}

/// A plain shift loses the bit that leaves; a rotation carries it to the other end.
#[test]
fn noekeon_shifts_lose_the_bits_that_leave_and_rotations_bring_them_back() {
    for (word, plain, rotated) in [
        (0x8000_0000, 0x8080_0000, 0x8080_0080),
        (0x0000_0001, 0x0000_0101, 0x0100_0101),
    ] {
        let p = [word, 0, 0, 0];
        assert_eq!(EARLIER.theta([0; 4], p)[1], plain);
        assert_eq!(DESIGNERS.theta([0; 4], p)[1], rotated);
    }
}

/// Each bit of t, so that S, which is linear, agrees everywhere.
#[test]
fn noekeon_s_by_neighbours_is_s_by_rotations() {
    for bit in 0..32 {
        let t = 1u32 << bit;
        let rotated = t ^ t.rotate_right(8) ^ t.rotate_left(8);
        assert_eq!((DESIGNERS.s)(t), rotated);
    }
}

#[test]
fn hierocrypt_s_is_undone_by_power_223_and_the_inverse_permutation() {
    let inverse_permutation = [8, 6, 1, 7, 3, 5, 2, 4];
    for x in 0..=255u8 {
        let power = h3::FIELD.power(x ^ 0x07, 223);
        let by_rule = inverse_permutation
            .iter()
            .fold(0, |y, &bit| y << 1 | (power >> (8 - bit) & 1));
        assert_eq!(h3::s_inverse(x), by_rule);
    }
}

#[test]
fn hierocrypt_mds_h_is_an_xor_of_matrices_on_columns() {
    let random = &mut Random::seeded(18);
    let (a, b, c) = (h3::A, h3::B, h3::C);
    let rows = [[a, a, b, c], [c, a, a, b], [b, c, a, a], [a, b, c, a]];
    for _ in 0..50 {
        let x: Block = random.array();
        let y = h3::mds_h(x);
        for (number, row) in rows.iter().enumerate() {
            let column = (0..4).fold([0; 4], |sum, i| {
                let applied = second::matrix::apply(h3::FIELD, &row[i], part(&x, i));
                xor(sum, applied)
            });
            assert_eq!(part::<4>(&y, number), column);
        }
        assert_eq!(h3::mds_h_inverse(y), x);
    }
}

#[test]
fn hierocrypt_p_n_is_the_four_equations() {
    let random = &mut Random::seeded(19);
    let x: [u8; 8] = random.array();
    let [x1, x2, x3, x4]: [[u8; 2]; 4] = std::array::from_fn(|i| part(&x, i));
    let y = [
        xor(x1, x3),
        xor(x2, x4),
        xor(x2, xor(x3, x4)),
        xor(x1, xor(x3, x4)),
    ];
    assert_eq!(p_n(x), y.concat()[..]);
    assert_eq!(h3::p_n_inverse(p_n(x)), x);
}

#[test]
fn hierocrypt_intermediate_keys_are_symmetric_about_the_turn() {
    let random = &mut Random::seeded(20);
    for length in [16, 24, 32] {
        for _ in 0..20 {
            let z = intermediate_keys(&random.bytes(length));
            assert_eq!(z.len(), hierocrypt3::rounds(length) + 2);
            for t in turn(length) + 1..z.len() {
                assert_eq!(z[t], z[2 * turn(length) - t]);
            }
        }
    }
}

/// The ciphertext side once more, from the plaintext side's Z alone: there W(t) is
/// P^(32) of Z3(t) and Z4(t), so no inverse step is taken.
#[test]
fn hierocrypt_ciphertext_side_round_keys_from_the_symmetry() {
    let random = &mut Random::seeded(21);
    for length in [16, 24, 32] {
        let key = random.bytes(length);
        let z = intermediate_keys(&key);
        let round_keys = hierocrypt3::keys::set_up(&key);
        for t in turn(length) + 1..=hierocrypt3::rounds(length) + 1 {
            let (before, now) = (z[2 * turn(length) - t + 1], z[2 * turn(length) - t]);
            let by_symmetry = ciphertext_side(before, now);
            assert_eq!(part::<32>(&round_keys, t - 1), by_symmetry.concat()[..]);
        }
    }
}

fn ciphertext_side(before: Intermediate, now: Intermediate) -> [[u8; 8]; 4] {
    let w: [u8; 16] = p_n(part::<16>(&now.concat(), 1));
    let (w1, w2): ([u8; 8], [u8; 8]) = (part(&w, 0), part(&w, 1));
    let v = f_sigma(xor(before[0], before[2]));
    [
        xor(now[0], before[2]),
        xor(w1, v),
        xor(w2, v),
        xor(before[0], w2),
    ]
}

#[test]
fn hierocrypt_constants_read_the_same_from_the_turn_outwards() {
    for length in [16, 24, 32] {
        let rows = rows(length);
        assert_eq!(rows.len(), hierocrypt3::rounds(length) + 1);
        for t in turn(length) + 1..=rows.len() {
            assert_eq!(rows[t - 1], rows[2 * turn(length) - t]);
        }
    }
    assert_eq!(g0(0), 0xCA62_C1D6_5A82_7999u64.to_be_bytes());
    assert_eq!(g0(5), 0x6ED9_EBA1_5A82_7999u64.to_be_bytes());
}
