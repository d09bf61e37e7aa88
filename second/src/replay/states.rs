//! Kept streams at the end of the streams part: bad ones, ones next to the limit, any.
//! Follows document 01, 'The two records' and 'Refusal numbers'.

use super::call::Call;
use super::ciphers::BASE;
use super::faults::{any_stream, bad_schedules, bad_streams};
use super::record::{stream_bytes, CLOSED};
use super::script::{room, Script};
use super::streams::written;
use crate::random::Random;
use crate::stream::Stream;

pub fn write(script: &mut Script, random: &mut Random) {
    states_to_refuse(script, random);
    next_to_the_limit(script, random);
    closed_bytes(script, random);
    any_states(script, random, BASE.legal, 120);
}

/// Bad states before a piece and before a finish, whatever else is wrong with the call.
fn states_to_refuse(script: &mut Script, random: &mut Random) {
    let mut bad = bad_streams(random, BASE.legal);
    for schedule in bad_schedules(random, &BASE) {
        let stream = any_stream(random, BASE.legal, 48);
        bad.push(Stream { schedule, ..stream });
    }
    for stream in bad {
        let closed = stream.closed || random.below(4) == 0;
        script.keep_stream(&Stream { closed, ..stream });
        let (length, space) = random.one_of(&[(0, 0), (16, 32), (33, 64), (16, 0)]);
        script.piece(&random.bytes(length), room(space, random.byte()));
        script.finish();
    }
}

fn next_to_the_limit(script: &mut Script, random: &mut Random) {
    for under in [17, 16, 15, 1, 0] {
        for length in [0, 1, 15, 16, 17, 32] {
            for space in [0, 16, 32] {
                script.keep_stream(&any_stream(random, BASE.legal, Stream::LIMIT - under));
                script.piece(&random.bytes(length), room(space, random.byte()));
            }
        }
        script.keep_stream(&any_stream(random, BASE.legal, Stream::LIMIT - under));
        script.finish();
    }
    for (count, length) in [(Stream::LIMIT, 0), (Stream::LIMIT, 1), (16, 8192)] {
        let stream = any_stream(random, BASE.legal, count);
        script.keep_stream(&Stream {
            closed: true,
            ..stream
        });
        script.piece(&random.bytes(length), room(0, 0));
        script.finish();
    }
}

/// A closed byte over 1 counts as 1, with and without bytes held.
fn closed_bytes(script: &mut Script, random: &mut Random) {
    for closed in [0, 1, 2, 128, 255] {
        for count in [32, 37] {
            let mut bytes = stream_bytes(&any_stream(random, BASE.legal, count));
            bytes[CLOSED] = closed;
            script.call(Call::KeepStream(Box::new(bytes)));
            script.piece(&random.bytes(5), room(16, 0xB7));
            script.finish();
        }
    }
}

/// States and pieces at random, rooms about the size that is needed.
pub fn any_states(script: &mut Script, random: &mut Random, legal: &[(u8, u8)], number: usize) {
    for _ in 0..number {
        let count = random.below(1000);
        let length = random.below(70);
        let space = (written(count, length) + random.below(4)).saturating_sub(1);
        let stream = any_stream(random, legal, count as u64);
        script.keep_stream(&stream);
        script.piece(&random.bytes(length), room(space, random.byte()));
    }
}
