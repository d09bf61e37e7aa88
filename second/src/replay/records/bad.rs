//! Bad states laid down, alone and with too little room; records taken up under bad
//! schedules, whatever else is wrong with them.
//! Follows document 02, request 5.

use super::told::Told;
use crate::cipher::Schedule;
use crate::random::Random;
use crate::reading::record_of;
use crate::replay::ciphers::{ALL, LEGAL};
use crate::replay::faults::{any_schedule, any_stream, bad_schedules, bad_streams};
use crate::stream::Stream;

pub fn write(told: &mut Told, random: &mut Random) {
    let mut bad = bad_streams(random, &LEGAL);
    for schedule in bad_schedules(random, &ALL).into_iter().step_by(3) {
        let stream = any_stream(random, &LEGAL, 21);
        bad.push(Stream { schedule, ..stream });
    }
    bad.extend(closed_states(random));
    for stream in bad {
        told.keep_stream(&stream);
        for space in [40, 39, 0, 41] {
            told.lay_down(space, random.byte());
        }
    }
    two_causes(told, random);
    under_bad_schedules(told, random);
}

/// Bad for another cause, and closed besides.
fn closed_states(random: &mut Random) -> Vec<Stream> {
    let mut bad = Vec::new();
    for count in [0, 32, Stream::LIMIT + 16] {
        let mut stream = any_stream(random, &LEGAL, count);
        stream.closed = true;
        stream.held[0] = random.mark();
        bad.push(stream.clone());
        stream.direction = 3;
        bad.push(stream);
    }
    bad
}

fn two_causes(told: &mut Told, random: &mut Random) {
    let stream = any_stream(random, &LEGAL, Stream::LIMIT + 5);
    let states = [
        Stream {
            direction: 0,
            ..stream.clone()
        },
        Stream {
            schedule: Schedule::ZERO,
            ..stream.clone()
        },
        Stream {
            closed: true,
            ..stream
        },
        Stream::ZERO,
    ];
    for state in states {
        told.keep_stream(&state);
        told.lay_down(40, random.byte());
        told.lay_down(39, random.byte());
    }
}

/// 5 comes before 15 and 16: a good record of the schedule's own numbers, of another
/// cipher, one with a fault, and no bytes. The stream is the one of zeros then.
fn under_bad_schedules(told: &mut Told, random: &mut Random) {
    for schedule in bad_schedules(random, &ALL).into_iter().step_by(2) {
        told.keep_schedule(&schedule);
        let own = told.any_record(random, 21);
        let other = record_of(&any_stream(random, &LEGAL, 37));
        let mut faulty = own.clone();
        faulty[2] = random.one_of(&[0, 3]);
        told.take_up(random.one_of(&[&own[..], &other]));
        told.take_up(random.one_of(&[&faulty[..], &own[1..], &[]]));
    }
    told.lay_down(40, 0x77);
    told.set_up(5, &random.bytes(16));
    told.take_up(&[0; 40]);
    for (cipher, key_length) in LEGAL {
        told.keep_schedule(&any_schedule(random, cipher, key_length));
        let record = told.any_record(random, 21);
        told.take_up(&record);
        told.any_piece(random, 30);
    }
}
