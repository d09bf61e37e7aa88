//! Every cause of 15 alone and in pairs, under the schedule of the record, under another
//! and under a bad one.
//! Follows document 02, request 5, and its reading.

use super::told::Told;
use crate::cipher::Schedule;
use crate::random::Random;
use crate::replay::ciphers::LEGAL;
use crate::replay::faults::any_schedule;

/// A fault put into a record of 21 bytes, five of them held.
type Cause = fn(&mut Random, &mut Vec<u8>);

const COUNT: u64 = 21;

/// The length stands last, so that the others still find their places.
const CAUSES: [Cause; 9] = [
    |random, record| record[0] = random.one_of(&[0, 5, 6, 128, 129, 255]),
    |random, record| record[1] = random.one_of(&[0, 1, 15, 17, 23, 33, 144, 255]),
    |random, record| record[2] = random.one_of(&[0, 3, 4, 129, 255]),
    |random, record| record[3] = random.one_of(&[2, 3, 128, 255]),
    |_, record| record[3] = 1,
    |random, record| {
        let place = random.one_of(&[4, 5]);
        record[place] |= random.one_of(&[0x10, 0x20, 0x80]);
    },
    |random, record| record[24 + 5 + random.below(10)] = random.mark(),
    |random, record| record[39] = random.mark(),
    |random, record| {
        let length = random.one_of(&[0, 24, 39, 41, 42, 44, 48, 56, 80]);
        record.resize(length, 0);
    },
];

pub fn write(told: &mut Told, random: &mut Random) {
    for kind in LEGAL {
        told.any_set_up(random, kind);
        each_alone(told, random, 3);
    }
    for kind in [(1, 16), (2, 24), (3, 16), (4, 16)] {
        told.any_set_up(random, kind);
        pairs(told, random);
    }
    with_another_schedule(told, random);
    with_a_bad_schedule(told, random);
}

fn with(random: &mut Random, record: &[u8], causes: &[Cause]) -> Vec<u8> {
    let mut record = record.to_vec();
    for cause in causes {
        cause(random, &mut record);
    }
    record
}

fn each_alone(told: &mut Told, random: &mut Random, times: usize) {
    for cause in CAUSES {
        for _ in 0..times {
            let record = told.any_record(random, COUNT);
            let record = with(random, &record, &[cause]);
            told.take_up(&record);
        }
    }
    let record = told.any_record(random, COUNT);
    told.take_up_and_lay_down(random, &record);
}

fn pairs(told: &mut Told, random: &mut Random) {
    for (number, &first) in CAUSES.iter().enumerate() {
        for &second in &CAUSES[number + 1..] {
            let record = told.any_record(random, COUNT);
            let record = with(random, &record, &[first, second]);
            told.take_up(&record);
        }
    }
}

/// 15 comes before 16: the record is of another cipher, or of another key length.
fn with_another_schedule(told: &mut Told, random: &mut Random) {
    for (kind, other) in [
        ((1, 16), (1, 24)),
        ((1, 32), (2, 32)),
        ((2, 24), (2, 16)),
        ((3, 16), (4, 16)),
        ((4, 16), (3, 16)),
        ((4, 16), (1, 16)),
    ] {
        told.keep_schedule(&any_schedule(random, other.0, other.1));
        for cause in CAUSES {
            let mut record = told.any_record(random, COUNT);
            record[..2].copy_from_slice(&[kind.0, kind.1]);
            told.take_up(&with(random, &record, &[cause]));
            told.take_up(&record);
        }
    }
}

/// 5 comes before both: the schedule is bad for each of its causes.
fn with_a_bad_schedule(told: &mut Told, random: &mut Random) {
    let mut marked = any_schedule(random, 2, 16);
    marked.round_keys[287] = 1;
    let schedules = [
        Schedule::ZERO,
        Schedule::with(5, 16, &random.bytes(16)),
        Schedule::with(3, 24, &random.bytes(16)),
        marked,
    ];
    for schedule in schedules {
        told.keep_schedule(&schedule);
        for cause in CAUSES {
            let mut record = told.any_record(random, COUNT);
            record[..2].copy_from_slice(&[2, 16]);
            told.take_up(&with(random, &record, &[cause]));
            record[1] = random.one_of(&[16, 24]);
            told.take_up(&record);
        }
    }
}
