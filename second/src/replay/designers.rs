//! The part of request 2: number 3 means the designers' Noekeon, and the earlier rule
//! stands beside it under number 4.
//! Follows document 02, request 2.

use super::call::Call;
use super::ciphers::NOEKEONS;
use super::faults::{any_schedule, any_stream, bad_schedules};
use super::script::{room, Script};
use super::vectors::NOEKEON_VECTORS;
use super::{blocks, entries, states, streams};
use crate::cipher::{set_up, Schedule, NOEKEON, NOEKEON_EARLIER};
use crate::random::Random;
use crate::stream::Stream;

/// The parts before this one try number 4 at length, so much of this one is for 3 alone.
const NUMBER_3: [(u8, u8); 1] = [(NOEKEON, 16)];
const BOTH: [u8; 2] = [NOEKEON, NOEKEON_EARLIER];

pub fn write(script: &mut Script) {
    let random = &mut Random::seeded(4);
    blocks::set_ups(script, random, &NOEKEONS);
    blocks::legal_keys(script, random, &NUMBER_3);
    for vector in NOEKEON_VECTORS {
        blocks::published_vector(script, NOEKEON, &vector);
        blocks::published_vector(script, NOEKEON_EARLIER, &vector);
    }
    blocks::lengths_and_rooms(script, random, &NUMBER_3);
    blocks::keys_from_no_key(script, random, &NUMBER_3);
    entries::write(script, random, &NOEKEONS);
    the_same_under_both(script, random);
    starts(script, random);
    streams::pieces_and_rooms(script, random, &NUMBER_3);
    streams::two_cuts(script, random, NOEKEONS.legal);
    several_cuts(script, random);
    the_other_set_up_between(script, random);
    records_to_refuse(script, random);
    next_to_the_limit(script, random);
    states::any_states(script, random, NOEKEONS.legal, 20);
}

/// Key, round keys, blocks and stream are the same bytes; only the number differs.
fn the_same_under_both(script: &mut Script, random: &mut Random) {
    for _ in 0..4 {
        let (key, block) = (random.bytes(16), random.bytes(16));
        let any = any_stream(random, &NUMBER_3, 37);
        let piece = random.bytes(30);
        for cipher in BOTH {
            script.set_up(cipher.into(), &key);
            script.encipher(&block, room(16, 0x12));
            script.decipher(&block, room(16, 0x12));
            entry_both_ways(script, cipher, &key, &block);
            let schedule = Schedule {
                cipher,
                ..any.schedule.clone()
            };
            script.keep_schedule(&schedule);
            script.encipher(&block, room(16, 0x56));
            script.decipher(&block, room(16, 0x56));
            let stream = any.clone();
            script.keep_stream(&Stream { schedule, ..stream });
            script.piece(&piece, room(32, 0x78));
        }
    }
}

fn entry_both_ways(script: &mut Script, cipher: u8, key: &[u8], block: &[u8]) {
    for direction in [1, 2] {
        script.call(Call::Entry {
            cipher: cipher.into(),
            direction,
            key: key.to_vec(),
            block: block.to_vec(),
            buffer: room(16, 0x34),
        });
    }
}

/// Good and bad directions and first blocks under number 3.
fn starts(script: &mut Script, random: &mut Random) {
    script.set_up(NOEKEON.into(), &random.bytes(16));
    for direction in [0, 1, 2, 3, 259] {
        for length in [15, 16] {
            script.start(direction, &random.bytes(length));
        }
    }
}

/// One message of five blocks, cut in each of these ways, there and back.
fn several_cuts(script: &mut Script, random: &mut Random) {
    let (key, first) = (random.bytes(16), random.bytes(16));
    let message = random.bytes(80);
    let schedule = set_up(NOEKEON.into(), &key).schedule;
    let back = streams::enciphered(&schedule, &first, &message);
    script.set_up(NOEKEON.into(), &key);
    let cuts: [&[usize]; 8] = [
        &[80],
        &[16; 5],
        &[10; 8],
        &[7, 9, 7, 9, 48],
        &[15, 1, 15, 1, 32, 16],
        &[17, 31, 32],
        &[0, 33, 0, 47, 0],
        &[1, 78, 1],
    ];
    for lengths in cuts {
        cut_at(script, 1, &first, &message, lengths);
        cut_at(script, 2, &first, &back, lengths);
    }
}

fn cut_at(script: &mut Script, direction: u64, first: &[u8], message: &[u8], lengths: &[usize]) {
    script.start(direction, first);
    let mut count = 0;
    for length in lengths {
        let space = streams::written(count, *length);
        script.piece(&message[count..count + length], room(space, 0x9A));
        count += length;
    }
    script.finish();
}

/// A stream keeps its cipher, whichever of the two is set up or kept after its start.
fn the_other_set_up_between(script: &mut Script, random: &mut Random) {
    for (cipher, other) in [(NOEKEON, NOEKEON_EARLIER), (NOEKEON_EARLIER, NOEKEON)] {
        let key = random.bytes(16);
        script.set_up(cipher.into(), &key);
        script.start(1, &random.bytes(16));
        script.piece(&random.bytes(20), room(16, 0x10));
        script.set_up(other.into(), &key);
        script.piece(&random.bytes(20), room(16, 0x20));
        script.keep_schedule(&any_schedule(random, other, 16));
        script.piece(&random.bytes(24), room(32, 0x30));
        script.finish();
    }
}

/// Each bad schedule before a block, before a start, and within a stream.
fn records_to_refuse(script: &mut Script, random: &mut Random) {
    for schedule in bad_schedules(random, &NOEKEONS) {
        script.keep_schedule(&schedule);
        script.encipher(&random.bytes(16), room(16, random.byte()));
        script.decipher(&random.bytes(16), room(16, random.byte()));
        script.start(random.one_of(&[1, 2]), &random.bytes(16));
        let stream = any_stream(random, &NUMBER_3, 48);
        script.keep_stream(&Stream { schedule, ..stream });
        script.piece(&random.bytes(16), room(16, random.byte()));
        script.finish();
    }
}

fn next_to_the_limit(script: &mut Script, random: &mut Random) {
    for length in [0, 15, 16, 17] {
        let stream = any_stream(random, &NUMBER_3, Stream::LIMIT - 16);
        script.keep_stream(&stream);
        script.piece(&random.bytes(length), room(16, random.byte()));
        script.finish();
    }
}
