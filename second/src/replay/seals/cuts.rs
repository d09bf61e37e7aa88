//! Messages in pieces: of one byte, in fixed cuts and at random, with empty ones between.
//! Follows document 02, request 3.

use super::led_to;
use crate::cipher::set_up;
use crate::random::Random;
use crate::replay::ciphers::{ALL, LEGAL};
use crate::replay::script::{room, Script};

pub fn write(script: &mut Script, random: &mut Random) {
    byte_by_byte(script, random);
    fixed_cuts(script, random);
    any_cuts(script, random);
    long_pieces(script, random);
}

fn byte_by_byte(script: &mut Script, random: &mut Random) {
    for (cipher, key_length, length) in [
        (1, 16, 33),
        (2, 24, 17),
        (3, 16, 33),
        (4, 16, 16),
        (1, 32, 16),
        (3, 16, 16),
    ] {
        script.set_up(cipher, &random.bytes(key_length));
        script.start_seal();
        for byte in random.bytes(length) {
            script.piece_of_seal(&[byte]);
        }
        script.write_seal(room(16, random.byte()));
    }
}

/// One message of three blocks, cut in each of these ways.
fn fixed_cuts(script: &mut Script, random: &mut Random) {
    let cuts: [&[usize]; 8] = [
        &[48],
        &[16, 16, 16],
        &[15, 1, 15, 1, 16],
        &[17, 31],
        &[0, 16, 0, 0, 16, 0, 16, 0],
        &[1, 47],
        &[32, 16],
        &[31, 17],
    ];
    let message = random.bytes(48);
    let ciphers = ALL.legal_numbers();
    let keys: Vec<Vec<u8>> = ciphers.iter().map(|_| random.bytes(16)).collect();
    for (number, lengths) in cuts.into_iter().enumerate() {
        let which = number % ciphers.len();
        script.set_up(ciphers[which].into(), &keys[which]);
        script.start_seal();
        let mut rest = &message[..];
        for &length in lengths {
            let (piece, after) = rest.split_at(length);
            script.piece_of_seal(piece);
            rest = after;
        }
        script.write_seal(room(16, 0x9A));
    }
}

/// Pieces at random, the empty one often among them; then written, or checked.
fn any_cuts(script: &mut Script, random: &mut Random) {
    for (cipher, key_length) in LEGAL {
        for written in [true, false] {
            let key = random.bytes(key_length.into());
            let length = random.below(110);
            let message = random.bytes(length);
            script.set_up(cipher.into(), &key);
            script.start_seal();
            any_pieces(script, random, &message);
            let schedule = set_up(cipher.into(), &key).schedule;
            match written {
                true => script.write_seal(room(16 + random.below(3), random.byte())),
                false => script.check_seal(&led_to(&schedule, &message).sealed()),
            }
        }
    }
}

fn any_pieces(script: &mut Script, random: &mut Random, message: &[u8]) {
    let mut rest = message;
    while !rest.is_empty() {
        let length = random.one_of(&[0, 1, 7, 15, 16, 17, 24, 32, 33]);
        let (piece, after) = rest.split_at(length.min(rest.len()));
        script.piece_of_seal(piece);
        rest = after;
    }
}

/// Pieces of many blocks, up to the longest that a script can say.
fn long_pieces(script: &mut Script, random: &mut Random) {
    for (cipher, key_length) in LEGAL {
        script.set_up(cipher.into(), &random.bytes(key_length.into()));
        script.start_seal();
        for bound in [40, 700] {
            let length = random.below(bound);
            script.piece_of_seal(&random.bytes(length));
        }
        script.write_seal(room(16, random.byte()));
    }
    script.start_seal();
    for length in [8192, 15, 8192] {
        script.piece_of_seal(&random.bytes(length));
    }
    script.write_seal(room(16, 0x66));
}
