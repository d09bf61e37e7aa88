//! Records with arbitrary round keys, and records that are bad for one cause each.
//! Follows document 01, 'The two records', and document 02, request 3.

use super::ciphers::Ciphers;
use crate::cipher::{is_key_length, used, Schedule, ROUND_KEY_BYTES};
use crate::random::Random;
use crate::seal::Seal;
use crate::stream::Stream;

/// A good schedule whose round keys come from no key.
pub fn any_schedule(random: &mut Random, cipher: u8, key_length: u8) -> Schedule {
    let round_keys = random.bytes(used(cipher, key_length));
    Schedule::with(cipher, key_length, &round_keys)
}

/// A good open stream in the midst of a message.
pub fn any_stream(random: &mut Random, legal: &[(u8, u8)], count: u64) -> Stream {
    let (cipher, key_length) = random.one_of(legal);
    let mut stream = Stream {
        schedule: any_schedule(random, cipher, key_length),
        direction: random.one_of(&[1, 2]),
        count,
        chain: random.array(),
        ..Stream::ZERO
    };
    for place in 0..stream.held_number() {
        stream.held[place] = random.mark();
    }
    stream
}

/// A good open seal state that perhaps no message led to.
pub fn any_seal(random: &mut Random, legal: &[(u8, u8)], count: u64) -> Seal {
    let (cipher, key_length) = random.one_of(legal);
    let mut seal = Seal {
        schedule: any_schedule(random, cipher, key_length),
        count,
        ..Seal::ZERO
    };
    if count > 16 {
        seal.chain = random.array();
    }
    for place in 0..seal.held_number() {
        seal.held[place] = random.mark();
    }
    seal
}

pub fn bad_schedules(random: &mut Random, ciphers: &Ciphers) -> Vec<Schedule> {
    let mut bad = illegal_numbers(random, ciphers);
    bad.extend(illegal_lengths(random, ciphers));
    bad.extend(marked_behind(random, ciphers));
    bad
}

fn illegal_numbers(random: &mut Random, ciphers: &Ciphers) -> Vec<Schedule> {
    let mut bad = Vec::new();
    for &cipher in ciphers.illegal_bytes {
        for key_length in [0, 16, 24, 32] {
            bad.push(Schedule::with(cipher, key_length, &random.bytes(16)));
        }
    }
    bad
}

fn illegal_lengths(random: &mut Random, ciphers: &Ciphers) -> Vec<Schedule> {
    let mut bad = Vec::new();
    for cipher in ciphers.legal_numbers() {
        for key_length in [0, 1, 8, 15, 16, 17, 23, 24, 25, 31, 32, 33, 64, 128, 255] {
            if !is_key_length(cipher.into(), key_length.into()) {
                bad.push(Schedule::with(cipher, key_length, &random.bytes(16)));
            }
        }
    }
    bad
}

/// One byte behind the used ones isn't zero: the first, the last or any other.
fn marked_behind(random: &mut Random, ciphers: &Ciphers) -> Vec<Schedule> {
    let mut bad = Vec::new();
    for &(cipher, key_length) in ciphers.legal {
        let first = used(cipher, key_length);
        if first == ROUND_KEY_BYTES {
            continue;
        }
        let within = first + random.below(ROUND_KEY_BYTES - first);
        for place in [first, ROUND_KEY_BYTES - 1, within] {
            let mut schedule = any_schedule(random, cipher, key_length);
            schedule.round_keys[place] = random.mark();
            bad.push(schedule);
        }
    }
    bad
}

/// Streams that are bad for another cause than their schedule.
pub fn bad_streams(random: &mut Random, legal: &[(u8, u8)]) -> Vec<Stream> {
    let mut bad = Vec::new();
    for direction in [0, 3, 4, 128, 255] {
        let stream = any_stream(random, legal, 5);
        bad.push(Stream {
            direction,
            ..stream
        });
    }
    for over in [1, 16, 1 << 20, 1 << 32, 1 << 63] {
        bad.push(any_stream(random, legal, Stream::LIMIT + over));
    }
    bad.push(any_stream(random, legal, u64::MAX));
    for held in [1, 8, 15] {
        let stream = any_stream(random, legal, 32 + held);
        bad.push(Stream {
            closed: true,
            ..stream
        });
    }
    bad.extend(stale_streams(random, legal));
    bad
}

/// One held byte behind the used ones isn't zero: each place once, and the next
/// place for each number held.
fn stale_streams(random: &mut Random, legal: &[(u8, u8)]) -> Vec<Stream> {
    let each_place = (0..15).map(|place| (0, place));
    let next_place = (1..15).map(|held| (held, held));
    let places: Vec<(usize, usize)> = each_place.chain(next_place).collect();
    let mut bad = Vec::new();
    for (held, place) in places {
        let mut stream = any_stream(random, legal, 16 + held as u64);
        stream.held[place] = random.mark();
        bad.push(stream);
    }
    bad
}
