//! Deciphering undoes enciphering, and the reverse, for every schedule that isn't bad.
//! Follows document 01, 'The two records', and document 02, request 2.

use second::cipher::{decipher_block, encipher_block, schedule_of, set_up, used, Schedule};
use second::entry::entry;
use second::random::Random;
use second::refusal::Answer;
use second::replay::ciphers::LEGAL;
use second::replay::faults::any_schedule;

fn both_ways(schedule: &Schedule, random: &mut Random) {
    assert!(!schedule.is_bad());
    let block = random.bytes(16);
    let out = encipher_block(schedule, &block, &[0; 16]).out;
    assert_ne!(out, block);
    assert_eq!(decipher_block(schedule, &out, &[0; 16]).out, block);
    let out = decipher_block(schedule, &block, &[0; 16]).out;
    assert_ne!(out, block);
    assert_eq!(encipher_block(schedule, &out, &[0; 16]).out, block);
}

#[test]
fn schedules_from_keys() {
    let random = &mut Random::seeded(31);
    for (cipher, key_length) in LEGAL {
        for _ in 0..200 {
            let key = random.bytes(key_length.into());
            both_ways(&set_up(cipher.into(), &key).schedule, random);
        }
    }
}

#[test]
fn schedules_from_no_key() {
    let random = &mut Random::seeded(32);
    for (cipher, key_length) in LEGAL {
        for _ in 0..200 {
            let schedule = any_schedule(random, cipher, key_length);
            both_ways(&schedule, random);
        }
        let ones = vec![0xFF; used(cipher, key_length)];
        both_ways(&Schedule::with(cipher, key_length, &ones), random);
    }
}

#[test]
fn the_two_directions_differ() {
    let random = &mut Random::seeded(33);
    for (cipher, key_length) in LEGAL {
        let schedule = any_schedule(random, cipher, key_length);
        let block = random.array();
        assert_ne!(schedule.encipher(block), schedule.decipher(block));
    }
}

/// Under the zero key the earlier Noekeon enciphers and deciphers alike; the constants
/// of the designers' tell the directions apart.
#[test]
fn the_earlier_noekeon_under_the_zero_key_cannot_tell_directions_apart() {
    let random = &mut Random::seeded(34);
    let block = random.array();
    let earlier = schedule_of(4, &[0; 16]);
    assert_eq!(earlier.encipher(block), earlier.decipher(block));
    let designers = schedule_of(3, &[0; 16]);
    assert_ne!(designers.encipher(block), designers.decipher(block));
}

#[test]
fn every_bit_of_the_key_and_the_block_counts() {
    let random = &mut Random::seeded(35);
    for (cipher, key_length) in LEGAL {
        let (key, block) = (random.bytes(key_length.into()), random.array());
        let out = set_up(cipher.into(), &key).schedule.encipher(block);
        for bit in 0..8 * key.len() {
            let mut other = key.clone();
            other[bit / 8] ^= 1 << (bit % 8);
            let schedule = set_up(cipher.into(), &other).schedule;
            assert_ne!(schedule.encipher(block), out);
        }
        for bit in 0..128 {
            let mut other = block;
            other[bit / 8] ^= 1 << (bit % 8);
            let schedule = set_up(cipher.into(), &key).schedule;
            assert_ne!(schedule.encipher(other), out);
        }
    }
}

#[test]
fn the_entry_is_set_up_and_one_block() {
    let random = &mut Random::seeded(36);
    for (cipher, key_length) in LEGAL {
        let (key, block) = (random.bytes(key_length.into()), random.bytes(16));
        let schedule = set_up(cipher.into(), &key).schedule;
        let out = random.bytes(21);
        let enciphered = entry(cipher.into(), 1, &key, &block, &out);
        assert_eq!(enciphered, encipher_block(&schedule, &block, &out));
        assert_eq!(enciphered.answer, Answer::Done);
        assert_eq!(enciphered.out[16..], out[16..]);
        let deciphered = entry(cipher.into(), 2, &key, &block, &out);
        assert_eq!(deciphered, decipher_block(&schedule, &block, &out));
    }
}

/// Where the round keys of each cipher lie, and that the rest is zero.
#[test]
fn the_layout_of_the_round_keys() {
    let random = &mut Random::seeded(37);
    for (cipher, key_length, bytes) in [
        (1, 16, 224),
        (1, 24, 256),
        (1, 32, 288),
        (2, 16, 256),
        (2, 24, 256),
        (2, 32, 256),
        (3, 16, 16),
        (4, 16, 16),
    ] {
        let key = random.bytes(key_length);
        let schedule = set_up(cipher, &key).schedule;
        assert_eq!(used(schedule.cipher, schedule.key_length), bytes);
        assert!(schedule.round_keys[bytes..].iter().all(|&byte| byte == 0));
        let last_sixteen = &schedule.round_keys[bytes - 16..bytes];
        assert!(last_sixteen.iter().any(|&byte| byte != 0));
        if bytes == 16 {
            assert_eq!(schedule.round_keys[..16], key);
        }
    }
}

/// The second half of Hierocrypt-3's key T+1 is filled, and no block reads it.
#[test]
fn no_block_reads_the_second_half_of_the_last_key() {
    let random = &mut Random::seeded(38);
    for key_length in [16, 24, 32] {
        let schedule = any_schedule(random, 1, key_length);
        let last = used(1, key_length);
        let mut other = schedule.clone();
        other.round_keys[last - 16..last].copy_from_slice(&random.bytes(16));
        let block = random.array();
        assert_eq!(schedule.encipher(block), other.encipher(block));
        assert_eq!(schedule.decipher(block), other.decipher(block));
        other.round_keys[last - 17] ^= 1;
        assert_ne!(schedule.encipher(block), other.encipher(block));
    }
}
