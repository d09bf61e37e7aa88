//! A seal beside a stream, each with its own schedule, whatever is set up or kept between.
//! Follows document 02, request 3, and the page on replay.

use crate::random::Random;
use crate::replay::ciphers::LEGAL;
use crate::replay::faults::{any_schedule, any_seal, any_stream};
use crate::replay::script::{room, Script};

pub fn write(script: &mut Script, random: &mut Random) {
    for (cipher, other) in [(1, 4), (2, 3), (3, 4), (4, 2)] {
        beside_a_stream(script, random, (cipher, 16), (other, 16));
    }
    refused_between(script, random);
    kept_between(script, random);
}

fn set_up(script: &mut Script, random: &mut Random, (cipher, key_length): (u8, u8)) {
    script.set_up(cipher.into(), &random.bytes(key_length.into()));
}

fn beside_a_stream(script: &mut Script, random: &mut Random, cipher: (u8, u8), other: (u8, u8)) {
    set_up(script, random, cipher);
    script.start_seal();
    set_up(script, random, other);
    script.start(1, &random.bytes(16));
    script.piece_of_seal(&random.bytes(20));
    script.piece(&random.bytes(20), room(16, 0x10));
    set_up(script, random, cipher);
    script.piece_of_seal(&random.bytes(20));
    script.piece(&random.bytes(12), room(16, 0x20));
    script.write_seal(room(16, 0x30));
    script.finish();
}

/// A refused set-up leaves the seal and the stream; a refused start of the one leaves
/// the other.
fn refused_between(script: &mut Script, random: &mut Random) {
    for good in [true, false] {
        set_up(script, random, (2, 24));
        script.start(2, &random.bytes(16));
        script.start_seal();
        script.piece_of_seal(&random.bytes(17));
        script.set_up(9, &random.bytes(16));
        script.piece_of_seal(&random.bytes(15));
        match good {
            true => script.start(1, &random.bytes(16)),
            false => script.start_seal(),
        }
        script.piece_of_seal(&random.bytes(1));
        script.piece(&random.bytes(16), room(16, 0x40));
        script.write_seal(room(16, 0x50));
        script.finish();
    }
}

/// Each kept record takes the place of its own kind alone.
fn kept_between(script: &mut Script, random: &mut Random) {
    set_up(script, random, (1, 24));
    script.start_seal();
    script.keep_stream(&any_stream(random, &LEGAL, 21));
    script.piece_of_seal(&random.bytes(30));
    script.keep_schedule(&any_schedule(random, 4, 16));
    script.piece_of_seal(&random.bytes(30));
    let block = random.bytes(16);
    script.encipher(&block, room(16, 0x60));
    script.keep_seal(&any_seal(random, &LEGAL, 40));
    script.encipher(&block, room(16, 0x60));
    script.piece(&random.bytes(11), room(16, 0x70));
    script.piece_of_seal(&random.bytes(9));
    script.write_seal(room(16, 0x80));
    script.start_seal();
    script.check_seal(&random.bytes(16));
    script.finish();
}
