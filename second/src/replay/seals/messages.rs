//! Seals of whole messages, each in one piece.
//! Follows document 02, request 3, and NIST SP 800-38B.

use crate::cipher::set_up;
use crate::random::Random;
use crate::replay::ciphers::{ALL, LEGAL};
use crate::replay::script::{room, Script};

/// Lengths about whole blocks.
const ABOUT_BLOCKS: [usize; 8] = [0, 1, 15, 16, 17, 31, 32, 33];

pub fn write(script: &mut Script, random: &mut Random) {
    lengths(script, random);
    doublings(script, random);
    plain_messages(script, random);
}

pub fn message(script: &mut Script, random: &mut Random, message: &[u8]) {
    script.start_seal();
    script.piece_of_seal(message);
    script.write_seal(room(16, random.byte()));
}

/// Lengths about whole blocks for each cipher and key length, and each other length up
/// to 50 for one of them.
fn lengths(script: &mut Script, random: &mut Random) {
    for (number, (cipher, key_length)) in LEGAL.into_iter().enumerate() {
        script.set_up(cipher.into(), &random.bytes(key_length.into()));
        for length in 0..=50 {
            if ABOUT_BLOCKS.contains(&length) || length % LEGAL.len() == number {
                let bytes = random.bytes(length);
                message(script, random, &bytes);
            }
        }
    }
}

/// Keys under which the first two bits of L are each pair, so that a one falls out of
/// either doubling, of both and of neither.
fn doublings(script: &mut Script, random: &mut Random) {
    for cipher in ALL.legal_numbers() {
        for bits in 0..4 {
            let key = key_with(random, cipher.into(), bits);
            script.set_up(cipher.into(), &key);
            script.start_seal();
            script.write_seal(room(16, random.byte()));
            let block = random.bytes(16);
            message(script, random, &block);
        }
    }
}

fn key_with(random: &mut Random, cipher: u64, bits: u8) -> Vec<u8> {
    loop {
        let key = random.bytes(16);
        let l = set_up(cipher, &key).schedule.encipher([0; 16]);
        if l[0] >> 6 == bits {
            return key;
        }
    }
}

/// Messages that padding, or zeros, would make into one another.
fn plain_messages(script: &mut Script, random: &mut Random) {
    for cipher in ALL.legal_numbers() {
        script.set_up(cipher.into(), &[0; 16]);
        let padded = [&[0x80][..], &[0; 15]].concat();
        for bytes in [&[][..], &padded, &[0; 16]] {
            message(script, random, bytes);
        }
    }
}
