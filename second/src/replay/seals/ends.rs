//! The end of a message: rooms for the seal, and every call behind a write or a check.
//! Follows document 02, request 3.

use super::led_to;
use crate::bytes::Block;
use crate::cipher::set_up;
use crate::random::Random;
use crate::replay::ciphers::ALL;
use crate::replay::script::{room, Script};

pub fn write(script: &mut Script, random: &mut Random) {
    rooms(script, random);
    for cipher in ALL.legal_numbers() {
        behind_a_write(script, random, cipher.into());
        behind_a_yes(script, random, cipher.into());
        behind_a_no(script, random, cipher.into());
        check_behind_a_refused_write(script, random, cipher.into());
    }
}

/// Rooms that are too small, then one that isn't; several fillers.
fn rooms(script: &mut Script, random: &mut Random) {
    for cipher in ALL.legal_numbers() {
        script.set_up(cipher.into(), &random.bytes(16));
        for enough in [16, 17, 40] {
            let length = random.one_of(&[0, 5, 16, 23, 32]);
            script.start_seal();
            script.piece_of_seal(&random.bytes(length));
            for (space, filler) in [(0, 0), (15, random.byte())] {
                script.write_seal(room(space, filler));
            }
            script.write_seal(room(enough, random.one_of(&[0, 0x80, 0xEE, 0xFF])));
        }
    }
    script.start_seal();
    script.write_seal(room(1, 0x55));
    script.write_seal(room(272, 0xAA));
}

/// A message in one piece under a fresh key, and its seal.
fn begun(script: &mut Script, random: &mut Random, cipher: u64) -> Block {
    let key = random.bytes(16);
    let length = random.one_of(&[0, 1, 15, 16, 17, 32, 33, 40]);
    let message = random.bytes(length);
    script.set_up(cipher, &key);
    script.start_seal();
    script.piece_of_seal(&message);
    led_to(&set_up(cipher, &key).schedule, &message).sealed()
}

/// 7 comes before 9.
fn behind_a_write(script: &mut Script, random: &mut Random, cipher: u64) {
    let seal = begun(script, random, cipher);
    script.write_seal(room(16, 0x11));
    script.write_seal(room(16, 0x22));
    script.write_seal(room(0, 0x22));
    script.check_seal(&seal);
    script.piece_of_seal(&random.bytes(1));
    script.piece_of_seal(&[]);
    script.start_seal();
    script.write_seal(room(18, 0x33));
}

fn behind_a_yes(script: &mut Script, random: &mut Random, cipher: u64) {
    let seal = begun(script, random, cipher);
    script.check_seal(&seal);
    script.check_seal(&seal);
    script.write_seal(room(16, 0x44));
    script.piece_of_seal(&random.bytes(17));
}

fn behind_a_no(script: &mut Script, random: &mut Random, cipher: u64) {
    let seal = begun(script, random, cipher);
    script.check_seal(&random.bytes(16));
    script.check_seal(&seal);
    script.write_seal(room(15, 0x55));
    script.write_seal(room(16, 0x55));
    script.piece_of_seal(&[]);
}

fn check_behind_a_refused_write(script: &mut Script, random: &mut Random, cipher: u64) {
    let seal = begun(script, random, cipher);
    script.write_seal(room(15, 0x66));
    script.check_seal(&seal);
}
