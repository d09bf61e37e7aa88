//! Streams laid down at every count up to 33 and next to the limit, open and closed, in
//! rooms about 40; each taken up and laid down again.
//! Follows document 02, request 5.

use super::told::Told;
use crate::random::Random;
use crate::replay::ciphers::LEGAL;
use crate::replay::faults::any_stream;
use crate::stream::Stream;

const FILLERS: [u8; 5] = [0x00, 0x5A, 0x80, 0xEE, 0xFF];

pub fn write(told: &mut Told, random: &mut Random) {
    for kind in LEGAL {
        for direction in [1, 2] {
            byte_by_byte(told, random, kind, direction);
            closed(told, random, kind, direction);
        }
    }
    next_to_the_limit(told, random);
    rooms(told, random);
}

fn begun(told: &mut Told, random: &mut Random, kind: (u8, u8), direction: u64) {
    told.any_set_up(random, kind);
    told.start(direction, &random.bytes(16));
}

/// Laid down before each byte; at every fifth count it goes on from the record.
fn byte_by_byte(told: &mut Told, random: &mut Random, kind: (u8, u8), direction: u64) {
    begun(told, random, kind, direction);
    let every_fifth = random.below(5);
    for count in 0..34 {
        if count % 5 == every_fifth {
            told.stop(random);
        }
        told.lay_down(40, random.one_of(&FILLERS));
        told.any_piece(random, 1);
    }
}

/// A closed stream taken up is closed: a piece and a finish answer 7.
fn closed(told: &mut Told, random: &mut Random, kind: (u8, u8), direction: u64) {
    for blocks in 0..3 {
        begun(told, random, kind, direction);
        told.any_piece(random, 16 * blocks);
        told.stop(random);
        told.finish();
        told.stop(random);
        told.lay_down(40, 0xEE);
        if blocks == 2 {
            told.piece(&random.bytes(1), 0, 0);
            told.finish();
        }
    }
}

fn next_to_the_limit(told: &mut Told, random: &mut Random) {
    for under in [0, 0, 1, 2, 15, 16, 17, 32, 33] {
        let stream = any_stream(random, &LEGAL, Stream::LIMIT - under);
        told.keep_schedule(&stream.schedule);
        told.keep_stream(&stream);
        for length in [1 + under as usize, 0, under as usize, 1] {
            told.stop(random);
            told.any_piece(random, length);
        }
        told.finish();
        told.stop(random);
        told.lay_down(40, random.one_of(&FILLERS));
        told.piece(&[], 0, 0);
    }
}

/// Rooms that are too small and rooms that aren't, open and closed.
fn rooms(told: &mut Told, random: &mut Random) {
    for closed in [false, true] {
        for kind in LEGAL {
            begun(told, random, kind, 1);
            told.any_piece(random, if closed { 16 } else { 23 });
            if closed {
                told.finish();
            }
            for space in [0, 1, 16, 38, 39, 40, 41, 44, 48, 80, 296] {
                told.lay_down(space, random.one_of(&FILLERS));
            }
        }
    }
    for filler in FILLERS {
        told.lay_down(8192, filler);
    }
}
