//! The blocks part of the script: set-up, one block, kept schedules, then the C entry.
//! Follows document 01, 'The two records' and 'Refusal numbers'.

use super::call::Call;
use super::ciphers::{Ciphers, BASE};
use super::entries;
use super::faults::{any_schedule, bad_schedules};
use super::script::{room, Script, BLOCK_LENGTHS, KEY_LENGTHS, ROOMS};
use super::vectors::{Vector, VECTORS};
use crate::cipher::{is_cipher, schedule_of, used, Schedule, HIEROCRYPT3};
use crate::random::Random;

pub fn write(script: &mut Script) {
    let random = &mut Random::seeded(1);
    script.encipher(&random.bytes(16), room(16, 0xA5));
    script.decipher(&random.bytes(16), room(16, 0xA5));
    set_ups(script, random, &BASE);
    legal_keys(script, random, BASE.legal);
    for vector in VECTORS {
        published_vector(script, HIEROCRYPT3, &vector);
    }
    lengths_and_rooms(script, random, BASE.legal);
    keys_from_no_key(script, random, BASE.legal);
    schedules_to_refuse(script, random);
    entries::write(script, random, &BASE);
}

/// Every number with every length, and a block under whatever schedule is kept then.
pub fn set_ups(script: &mut Script, random: &mut Random, ciphers: &Ciphers) {
    for &cipher in ciphers.numbers {
        let lengths = if is_cipher(cipher) {
            &KEY_LENGTHS[..]
        } else {
            &[0, 16, 33]
        };
        for &length in lengths {
            script.set_up(cipher, &random.bytes(length));
            script.encipher(&random.bytes(16), room(16, random.byte()));
        }
    }
}

pub fn legal_keys(script: &mut Script, random: &mut Random, legal: &[(u8, u8)]) {
    for &(cipher, key_length) in legal {
        let length = usize::from(key_length);
        both_ways(script, random, cipher, &vec![0x00; length]);
        both_ways(script, random, cipher, &vec![0xFF; length]);
        for _ in 0..16 {
            let key = random.bytes(length);
            both_ways(script, random, cipher, &key);
        }
        many_blocks(script, random);
    }
}

/// Enciphers a block, deciphers what comes out, and deciphers another block.
fn both_ways(script: &mut Script, random: &mut Random, cipher: u8, key: &[u8]) {
    script.set_up(cipher.into(), key);
    let schedule = schedule_of(cipher, key);
    back_and_forth(script, random, &schedule);
}

fn back_and_forth(script: &mut Script, random: &mut Random, schedule: &Schedule) {
    let block = random.array();
    script.encipher(&block, room(16, random.byte()));
    script.decipher(&schedule.encipher(block), room(20, random.byte()));
    script.decipher(&random.bytes(16), room(16, random.byte()));
}

/// Blocks of a single bit and blocks at random under the schedule that is kept.
fn many_blocks(script: &mut Script, random: &mut Random) {
    for bit in 0..128u32 {
        let block = (1u128 << bit).to_be_bytes();
        if bit % 2 == 0 {
            script.encipher(&block, room(16, 0));
        } else {
            script.decipher(&block, room(16, 0));
        }
    }
    for _ in 0..32 {
        script.encipher(&random.bytes(16), room(16, 0));
        script.decipher(&random.bytes(16), room(16, 0));
    }
}

pub fn published_vector(script: &mut Script, cipher: u8, vector: &Vector) {
    let key = vector.key_bytes();
    script.set_up(cipher.into(), &key);
    script.encipher(&vector.plaintext_block(), room(16, 0x11));
    script.decipher(&vector.ciphertext_block(), room(16, 0x22));
    for (direction, block) in [
        (1, vector.plaintext_block()),
        (2, vector.ciphertext_block()),
    ] {
        script.call(Call::Entry {
            cipher: cipher.into(),
            direction,
            key: key.clone(),
            block: block.to_vec(),
            buffer: room(16, 0x33),
        });
    }
}

pub fn lengths_and_rooms(script: &mut Script, random: &mut Random, legal: &[(u8, u8)]) {
    for &(cipher, key_length) in legal {
        script.set_up(cipher.into(), &random.bytes(key_length.into()));
        for length in BLOCK_LENGTHS {
            for space in ROOMS {
                let filler = random.one_of(&[0x00, 0x5A, 0xA5, 0xFF]);
                script.encipher(&random.bytes(length), room(space, filler));
                script.decipher(&random.bytes(length), room(space, filler));
            }
        }
    }
}

pub fn keys_from_no_key(script: &mut Script, random: &mut Random, legal: &[(u8, u8)]) {
    for &(cipher, key_length) in legal {
        let used = used(cipher, key_length);
        let mut schedules = vec![
            Schedule::with(cipher, key_length, &vec![0x00; used]),
            Schedule::with(cipher, key_length, &vec![0xFF; used]),
        ];
        schedules.extend((0..8).map(|_| any_schedule(random, cipher, key_length)));
        let mut last_used = Schedule::with(cipher, key_length, &[]);
        last_used.round_keys[used - 1] = random.mark();
        schedules.push(last_used);
        for schedule in schedules {
            script.keep_schedule(&schedule);
            back_and_forth(script, random, &schedule);
        }
    }
}

/// Each bad schedule with good and with bad lengths beside it.
fn schedules_to_refuse(script: &mut Script, random: &mut Random) {
    for schedule in bad_schedules(random, &BASE) {
        script.keep_schedule(&schedule);
        for (length, space) in [(16, 16), (15, 16), (16, 15), (17, 0)] {
            script.encipher(&random.bytes(length), room(space, random.byte()));
            script.decipher(&random.bytes(length), room(space, random.byte()));
        }
    }
}
