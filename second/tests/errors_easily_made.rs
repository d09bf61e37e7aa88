//! Each error of the list, and those that request 2 invites, with a value that tells it
//! from the right program.
//! Follows document 01, 'Errors easily made', and document 02, request 2.

use second::bytes::{from_words, part, words, xor, Block};
use second::cipher::{set_up as set_up_cipher, Schedule};
use second::e2::functions::{divided, multiplied};
use second::hierocrypt3::keys::{g0, intermediate_keys, rows, set_up, sigma_inverse, turn};
use second::noekeon::{gamma, pi1, pi2, Rule, Words, DESIGNERS, EARLIER};
use second::random::Random;
use second::replay::ciphers::LEGAL;
use second::replay::faults::any_schedule;
use second::stream::{feed, start};

#[test]
fn the_chain_is_not_renewed_before_the_room_is_tested() {
    let random = &mut Random::seeded(71);
    for (cipher, key_length) in LEGAL {
        for direction in [1, 2] {
            let schedule = any_schedule(random, cipher, key_length);
            let stream = start(&schedule, direction, &random.bytes(16)).stream;
            let piece = random.bytes(32);
            let refused = feed(&stream, &piece, &[0; 31]);
            assert_eq!(refused.answer.number(), 9);
            assert_eq!(refused.stream.chain, stream.chain);
            let right = feed(&stream, &piece, &[0; 32]);
            assert_ne!(right.stream.chain, stream.chain);
            assert_eq!(feed(&refused.stream, &piece, &[0; 32]), right);
        }
    }
}

#[test]
fn deciphering_keeps_the_ciphertext_as_chain() {
    let random = &mut Random::seeded(72);
    for (cipher, key_length) in LEGAL {
        let schedule = any_schedule(random, cipher, key_length);
        let stream = start(&schedule, 2, &random.bytes(16)).stream;
        let (c1, c2) = (random.bytes(16), random.bytes(16));
        let first = feed(&stream, &c1, &[0; 16]);
        assert_eq!(first.stream.chain, c1[..]);
        assert_ne!(first.stream.chain, first.out[..]);
        let second = feed(&first.stream, &c2, &[0; 16]).out;
        let d2 = schedule.decipher(part(&c2, 0));
        assert_eq!(second, xor(d2, part(&c1, 0)));
        assert_ne!(second, xor(d2, part(&first.out, 0)));
    }
}

#[test]
fn y_is_made_odd_by_or_and_not_by_xor() {
    let x = from_words([3, 5, 7, 9]);
    let y = from_words([3, 2, 0, u32::MAX]);
    let by_or = [9, 15, 7, 9u32.wrapping_mul(u32::MAX)];
    let by_xor = [6, 15, 7, 9u32.wrapping_mul(u32::MAX - 1)];
    assert_eq!(words(multiplied(x, y)), by_or);
    assert_ne!(words(multiplied(x, y)), by_xor);
    assert_eq!(divided(from_words(by_or), y), x);
}

#[test]
fn the_inverse_step_t_takes_the_constant_of_row_t() {
    let random = &mut Random::seeded(73);
    for length in [16, 24, 32] {
        let key = random.bytes(length);
        let z = intermediate_keys(&key);
        let t = turn(length) + 2;
        let constant = |row: usize| g0(rows(length)[row - 1]);
        assert_ne!(constant(t), constant(t - 1));
        assert_eq!(sigma_inverse(z[t - 1], constant(t)), z[t]);
        assert_eq!(z[t], z[turn(length) - 2]);
        let wrong = sigma_inverse(z[t - 1], constant(t - 1));
        assert_ne!(wrong, z[t]);
        let k1 = |z_now: [u8; 8]| xor(z_now, z[t - 1][2]);
        assert_eq!(part::<8>(&set_up(&key), 4 * (t - 1)), k1(z[t][0]));
    }
}

#[test]
fn held_bytes_are_zero_again_after_a_block_is_completed() {
    let random = &mut Random::seeded(74);
    let schedule = any_schedule(random, 3, 16);
    let stream = start(&schedule, 1, &random.bytes(16)).stream;
    let holding = feed(&stream, &[0xEE; 15], &[]).stream;
    assert_eq!(holding.held, [0xEE; 15]);
    for (length, held) in [(1, 0), (2, 1), (8, 7), (15, 14)] {
        let after = feed(&holding, &vec![0xDD; length], &[0; 16]).stream;
        assert_eq!(after.held_number(), held);
        assert_eq!(after.held[..held], vec![0xDD; held]);
        assert!(after.held[held..].iter().all(|&byte| byte == 0));
    }
}

/// The wrong rules undo themselves, so no round trip would tell.
fn is_another_cipher(wrong: Rule, random: &mut Random) {
    let (key, block) = (random.array(), random.array());
    assert_eq!(wrong.decipher(key, wrong.encipher(key, block)), block);
    assert_ne!(wrong.encipher(key, block), DESIGNERS.encipher(key, block));
    assert_ne!(wrong.decipher(key, block), DESIGNERS.decipher(key, block));
}

#[test]
fn both_shifts_in_s_are_rotations() {
    let random = &mut Random::seeded(75);
    let plain: [fn(u32) -> u32; 3] = [
        EARLIER.s,
        |t| t ^ (t >> 8) ^ t.rotate_left(8),
        |t| t ^ t.rotate_right(8) ^ (t << 8),
    ];
    for s in plain {
        is_another_cipher(Rule { s, ..DESIGNERS }, random);
    }
}

#[test]
fn no_constant_is_left_out_or_in_another_place() {
    let random = &mut Random::seeded(76);
    for i in 0..=16 {
        let mut wrong = DESIGNERS;
        wrong.constants[i] = 0;
        is_another_cipher(wrong, random);
        let mut wrong = DESIGNERS;
        wrong.constants.swap(i, (i + 1) % 17);
        is_another_cipher(wrong, random);
    }
}

/// Deciphering with the constants in this order, each at its own theta.
fn deciphered(order: &[usize], theta: impl Fn(usize, Words) -> Words, block: Block) -> Block {
    let first = theta(order[0], words(block));
    let rest = order[1..].iter();
    from_words(rest.fold(first, |p, &i| theta(i, pi2(gamma(pi1(p))))))
}

#[test]
fn deciphering_runs_the_constants_down_and_xors_them_in_after_theta() {
    let random = &mut Random::seeded(77);
    let (key, block): (Block, Block) = (random.array(), random.array());
    let after = |i, p| DESIGNERS.add_constant(i, DESIGNERS.theta_inverse(words(key), p));
    let before = |i, p| DESIGNERS.theta_inverse(words(key), DESIGNERS.add_constant(i, p));
    let up: Vec<usize> = (0..=16).collect();
    let down: Vec<usize> = (0..=16).rev().collect();
    let right = DESIGNERS.decipher(key, block);
    assert_eq!(deciphered(&down, after, block), right);
    assert_ne!(deciphered(&up, after, block), right);
    assert_ne!(deciphered(&down, before, block), right);
    assert_ne!(deciphered(&up, before, block), right);
}

#[test]
fn number_4_does_not_mean_number_3() {
    let random = &mut Random::seeded(78);
    let (key, block) = (random.bytes(16), random.array());
    let [designers, earlier] = [3, 4].map(|cipher| set_up_cipher(cipher, &key).schedule);
    assert_eq!((designers.cipher, earlier.cipher), (3, 4));
    assert_eq!(designers.round_keys, earlier.round_keys);
    for work in [Schedule::encipher, Schedule::decipher] {
        assert_ne!(work(&designers, block), work(&earlier, block));
    }
    let key = part(&key, 0);
    assert_eq!(designers.encipher(block), DESIGNERS.encipher(key, block));
    assert_eq!(earlier.encipher(block), EARLIER.encipher(key, block));
}
