//! Whole messages with many stops, at random: pieces of odd lengths, refused ones among
//! them, records lost and older ones taken up, other schedules between.
//! Follows document 02, request 5, its last sentence.

use super::told::Told;
use crate::random::Random;
use crate::replay::ciphers::LEGAL;
use crate::replay::streams::written;

const STEPS: usize = 26;

pub fn write(told: &mut Told, random: &mut Random) {
    for kind in LEGAL {
        for direction in [1, 2] {
            scenario(told, random, kind, direction);
        }
    }
    for _ in 0..6 {
        let (kind, direction) = (random.one_of(&LEGAL), random.one_of(&[1, 2]));
        scenario(told, random, kind, direction);
    }
}

fn scenario(told: &mut Told, random: &mut Random, (cipher, key_length): (u8, u8), direction: u64) {
    let key = random.bytes(key_length.into());
    told.set_up(cipher, &key);
    told.start(direction, &random.bytes(16));
    let mut older = told.lay_down(40, random.byte());
    for _ in 0..STEPS {
        match random.below(12) {
            0..=3 => any_piece(told, random),
            4..=7 => told.stop(random),
            8 => older = told.lay_down(40, random.byte()),
            9 => told.take_up(&older),
            10 => set_up_between(told, random, (cipher, &key)),
            _ => refused(told, random),
        }
    }
    ended(told, random);
}

/// Of any length about a block; sometimes refused for want of room, then tried again.
fn any_piece(told: &mut Told, random: &mut Random) {
    let length = random.one_of(&[0, 1, 2, 3, 7, 9, 13, 15, 16, 17, 31, 33, 50]);
    let piece = random.bytes(length);
    let needed = written(told.stream.held_number(), length);
    if needed > 0 && random.below(3) == 0 {
        told.piece(&piece, needed - 1 - random.below(16), random.byte());
        told.stop(random);
    }
    told.piece(&piece, needed + random.below(3), random.byte());
}

/// The key is gone with the power, and other schedules come before it.
fn set_up_between(told: &mut Told, random: &mut Random, (cipher, key): (u8, &[u8])) {
    let record = told.lay_down(40, random.byte());
    told.set_up(cipher, &random.bytes(key.len()));
    told.take_up(&record);
    told.any_piece(random, 5);
    let other = random.one_of(&LEGAL);
    told.any_set_up(random, other);
    told.take_up(&record);
    told.set_up(cipher, key);
    told.take_up(&record);
}

/// A damaged record leaves the stream of zeros, and the whole one brings it back.
fn refused(told: &mut Told, random: &mut Random) {
    let record = told.lay_down(40, random.byte());
    let mut damaged = record.clone();
    damaged[random.below(40)] ^= 1 << random.below(8);
    told.take_up(&damaged);
    told.any_piece(random, 3);
    told.take_up(&record);
}

/// The last block filled, finished, laid down and taken up closed.
fn ended(told: &mut Told, random: &mut Random) {
    told.finish();
    let missing = (16 - told.stream.held_number()) % 16;
    if missing > 0 {
        told.any_piece(random, missing);
        told.stop(random);
        told.finish();
    }
    told.stop(random);
    told.piece(&random.bytes(1), 16, random.byte());
    told.finish();
    told.lay_down(40, random.byte());
}
