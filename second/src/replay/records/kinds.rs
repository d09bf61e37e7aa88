//! Records under the same schedule, another key's, another key length's and another
//! cipher's: what is taken up is fed further, laid down again and finished.
//! Follows document 02, request 5.

use super::told::Told;
use crate::random::Random;
use crate::reading::record_of;
use crate::replay::ciphers::LEGAL;
use crate::replay::faults::any_stream;

const LENGTHS: [u8; 9] = [0, 15, 16, 17, 24, 31, 32, 33, 255];

pub fn write(told: &mut Told, random: &mut Random) {
    every_schedule(told, random);
    for kind in LEGAL {
        for direction in [1, 2] {
            another_key(told, random, kind, direction);
        }
    }
    numbers(told, random);
}

/// A record of each cipher and key length under a schedule of each.
fn every_schedule(told: &mut Told, random: &mut Random) {
    let mut records = Vec::new();
    for kind in LEGAL {
        for count in [0, 21, 32] {
            records.push(record_of(&any_stream(random, &[kind], count)));
        }
    }
    for kind in LEGAL {
        told.any_set_up(random, kind);
        for record in &records {
            told.take_up_and_lay_down(random, record);
        }
    }
}

/// Another key of the same length can't be noticed; the right one gives the stream back.
fn another_key(told: &mut Told, random: &mut Random, kind: (u8, u8), direction: u64) {
    let keys = [0, 1].map(|_| random.bytes(kind.1.into()));
    told.set_up(kind.0, &keys[0]);
    told.start(direction, &random.bytes(16));
    let before = random.below(60);
    told.any_piece(random, before);
    let record = told.lay_down(40, random.byte());
    let behind = random.bytes(37);
    for key in [1, 0] {
        told.set_up(kind.0, &keys[key]);
        told.take_up(&record);
        for piece in [&behind[..3], &behind[3..4], &behind[4..]] {
            told.piece(piece, 48, random.byte());
            told.lay_down(40, random.byte());
        }
        let missing = (16 - told.stream.held_number()) % 16;
        told.any_piece(random, missing);
        told.stop(random);
        told.finish();
        told.lay_down(41, random.byte());
    }
}

/// Every number about the legal ones in the first two fields, under a schedule with
/// which it may differ: 15 where they are illegal together, else 16, else taken up.
fn numbers(told: &mut Told, random: &mut Random) {
    for kind in [(1, 24), (2, 32), (3, 16), (4, 16)] {
        told.any_set_up(random, kind);
        let mut record = told.any_record(random, 21);
        for number in 0..6 {
            for length in LENGTHS {
                record[..2].copy_from_slice(&[number, length]);
                told.take_up(&record);
            }
        }
        told.lay_down(40, random.byte());
    }
}
