//! The streams part of the script: start, pieces and finish, then kept streams.
//! Follows document 01, 'The two records' and 'Refusal numbers'.

use super::ciphers::BASE;
use super::faults::{any_schedule, bad_schedules};
use super::script::{room, Script, DIRECTIONS};
use super::states;
use crate::cipher::{set_up, Schedule};
use crate::random::Random;
use crate::stream::{feed, start};

const PIECES: [usize; 13] = [0, 1, 7, 9, 15, 16, 17, 31, 32, 33, 48, 100, 1000];

pub fn write(script: &mut Script) {
    let random = &mut Random::seeded(2);
    before_any_start(script, random);
    starts(script, random);
    starts_with_bad_schedules(script, random);
    pieces_and_rooms(script, random, BASE.legal);
    longest_pieces(script, random);
    finishes(script, random);
    two_cuts(script, random, BASE.legal);
    another_set_up_between(script, random);
    states::write(script, random);
}

/// How many bytes a piece writes.
pub fn written(count: usize, piece: usize) -> usize {
    16 * ((count + piece) / 16 - count / 16)
}

/// The stream is still all zero here, and so refused.
fn before_any_start(script: &mut Script, random: &mut Random) {
    script.piece(&random.bytes(16), room(16, 0xC3));
    script.piece(&[], room(0, 0));
    script.finish();
}

fn starts(script: &mut Script, random: &mut Random) {
    script.set_up(2, &random.bytes(24));
    for direction in DIRECTIONS {
        for length in [0, 15, 16, 17] {
            script.start(direction, &random.bytes(length));
        }
    }
    for &(cipher, key_length) in BASE.legal {
        script.keep_schedule(&any_schedule(random, cipher, key_length));
        script.start(1, &random.bytes(16));
        script.start(2, &random.bytes(16));
    }
}

/// Each bad schedule, with a good or a bad direction and first block beside it.
fn starts_with_bad_schedules(script: &mut Script, random: &mut Random) {
    for schedule in bad_schedules(random, &BASE) {
        script.keep_schedule(&schedule);
        let direction = random.one_of(&[0, 1, 2, 3, 257]);
        let length = random.one_of(&[15, 16]);
        script.start(direction, &random.bytes(length));
    }
    script.piece(&random.bytes(16), room(16, 0));
    script.finish();
}

/// All piece lengths on one stream, in another order for each; first refused for
/// want of room where anything is to be written, then tried again with enough.
pub fn pieces_and_rooms(script: &mut Script, random: &mut Random, legal: &[(u8, u8)]) {
    for (number, &(cipher, key_length)) in legal.iter().enumerate() {
        for direction in [1, 2] {
            let mut lengths = PIECES;
            lengths.rotate_left((2 * number + direction as usize - 1) % PIECES.len());
            script.set_up(cipher.into(), &random.bytes(key_length.into()));
            script.start(direction, &random.bytes(16));
            let count = lengths.into_iter().fold(0, |count, length| {
                piece_with_retry(script, random, count, length);
                count + length
            });
            script.finish();
            piece_with_retry(script, random, count, 16 - count % 16);
            script.finish();
            script.piece(&random.bytes(3), room(16, 0x77));
            script.finish();
        }
    }
}

fn piece_with_retry(script: &mut Script, random: &mut Random, count: usize, length: usize) {
    let piece = random.bytes(length);
    let needed = written(count, length);
    if needed > 0 {
        let short = random.one_of(&[0, needed - 16, needed - 1, needed - 1]);
        script.piece(&piece, room(short, random.byte()));
    }
    let enough = needed + random.one_of(&[0, 0, 1, 16, 50]);
    script.piece(&piece, room(enough, random.byte()));
}

fn longest_pieces(script: &mut Script, random: &mut Random) {
    for (cipher, key_length) in [(1, 32), (2, 16), (4, 16)] {
        for direction in [1, 2] {
            script.set_up(cipher, &random.bytes(key_length));
            script.start(direction, &random.bytes(16));
            script.piece(&random.bytes(15), room(0, 0));
            script.piece(&random.bytes(8192), room(8192, 0x99));
        }
    }
    script.piece(&random.bytes(8192), room(8191, 0x66));
}

/// Finish with each number held; then the block completed, and calls after the end.
fn finishes(script: &mut Script, random: &mut Random) {
    for held in 0..16 {
        let (cipher, key_length) = BASE.legal[held % BASE.legal.len()];
        script.set_up(cipher.into(), &random.bytes(key_length.into()));
        script.start(1 + held as u64 % 2, &random.bytes(16));
        script.piece(&random.bytes(held), room(0, 0));
        script.finish();
        script.piece(&random.bytes(16 - held), room(16, 0xEE));
        script.finish();
        script.piece(&[], room(0, 0));
        script.piece(&random.bytes(1 + held), room(held, 0x44));
        script.finish();
    }
    script.set_up(4, &random.bytes(16));
    script.start(1, &random.bytes(16));
    script.finish();
    script.finish();
}

/// A message enciphered in one cut, and what came out deciphered in another.
pub fn two_cuts(script: &mut Script, random: &mut Random, legal: &[(u8, u8)]) {
    for &(cipher, key_length) in legal {
        let key = random.bytes(key_length.into());
        let first = random.bytes(16);
        let length = 16 * (8 + random.below(16));
        let message = random.bytes(length);
        let schedule = set_up(cipher.into(), &key).schedule;
        script.set_up(cipher.into(), &key);
        cut(script, random, 1, &first, &message);
        cut(
            script,
            random,
            2,
            &first,
            &enciphered(&schedule, &first, &message),
        );
    }
}

pub fn enciphered(schedule: &Schedule, first: &[u8], message: &[u8]) -> Vec<u8> {
    let stream = start(schedule, 1, first).stream;
    feed(&stream, message, &vec![0; message.len()]).out
}

fn cut(script: &mut Script, random: &mut Random, direction: u64, first: &[u8], message: &[u8]) {
    script.start(direction, first);
    let mut count = 0;
    while count < message.len() {
        let length = random.below(80).min(message.len() - count);
        let space = written(count, length) + random.below(3);
        script.piece(&message[count..count + length], room(space, random.byte()));
        count += length;
    }
    script.finish();
}

/// The stream keeps the schedule it was started with, and a refused start or set-up
/// leaves a zero record behind.
fn another_set_up_between(script: &mut Script, random: &mut Random) {
    script.set_up(1, &random.bytes(16));
    script.start(1, &random.bytes(16));
    script.set_up(2, &random.bytes(32));
    script.piece(&random.bytes(40), room(32, 0x10));
    script.set_up(9, &random.bytes(16));
    script.piece(&random.bytes(40), room(48, 0x20));
    script.start(1, &random.bytes(16));
    script.piece(&random.bytes(16), room(16, 0x30));
    script.finish();
}
