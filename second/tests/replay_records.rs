//! The replay of readings laid down and taken up: the two calls byte by byte, and what
//! the records part of the script covers.
//! Follows the page on replay, 'Request 5', and document 02, request 5.

mod record_by_fields;
mod script_calls;

use record_by_fields::{causes, differ, taken_up, Cause, CAUSES};
use script_calls::calls;
use second::cipher::{set_up, Schedule};
use second::reading::lay_down;
use second::replay::call::Call;
use second::replay::ciphers::LEGAL;
use second::replay::interpreter::Kept;
use second::replay::record::{schedule_bytes, schedule_from, stream_bytes, stream_from};
use second::replay::{run, script, Extent};
use second::stream::{feed, start, Stream};
use std::collections::BTreeSet;

const KEY: [u8; 16] = *b"0123456789abcdef";
const LIMIT: u64 = 1_048_576;

fn string(bytes: &[u8]) -> Vec<u8> {
    [&(bytes.len() as u32).to_be_bytes(), bytes].concat()
}

fn set_up_call() -> Vec<u8> {
    [&[1, 0, 0, 0, 0, 0, 0, 0, 3][..], &string(&KEY)].concat()
}

fn begun() -> Stream {
    let stream = start(&set_up(3, &KEY).schedule, 2, &[7; 16]).stream;
    feed(&stream, &[0xAA, 0xBB], &[]).stream
}

/// The 40 bytes as the request lists them.
fn record() -> Vec<u8> {
    let head = [3, 16, 2, 0, 0, 0, 0, 2];
    [&head[..], &[7; 16], &[0xAA, 0xBB], &[0; 14]].concat()
}

#[test]
fn laying_down_byte_by_byte_leaves_the_kept_stream() {
    let script = [
        &[9][..],
        &stream_bytes(&begun()),
        &[0x12, 0, 0, 0, 39, 0x66],
        &[0x12, 0, 0, 0, 42, 0x66],
        &[6],
    ];
    let expected = [
        &[9][..],
        &[0x66; 39],
        &[0],
        &record(),
        &[0x66; 2],
        &[10],
        &stream_bytes(&begun()),
    ];
    assert_eq!(run(&script.concat()), expected.concat());
}

#[test]
fn taking_up_byte_by_byte_keeps_the_stream_refused_that_of_zeros() {
    let take_up = [&[0x13][..], &string(&record())].concat();
    let script = [
        set_up_call(),
        take_up.clone(),
        vec![6],
        vec![0x13, 0, 0, 0, 1, 3],
        vec![6],
        take_up,
    ];
    let (zero, stream) = ([0; 331], stream_bytes(&begun()));
    let expected = [
        &[0][..],
        &schedule_bytes(&begun().schedule),
        &[0],
        &stream,
        &[10],
        &stream,
        &[15],
        &zero,
        &[6],
        &zero,
        &[0],
        &stream,
    ];
    assert_eq!(run(&script.concat()), expected.concat());
}

#[test]
fn both_are_refused_at_the_beginning() {
    let script = [&[0x12, 0, 0, 0, 2, 0x77, 0x13][..], &string(&record())];
    let expected = [&[6, 0x77, 0x77, 5][..], &[0; 331]];
    assert_eq!(run(&script.concat()), expected.concat());
}

/// A call on records with the schedule and the stream before it, and what is written.
struct Made {
    call: Call,
    schedule: Schedule,
    stream: Stream,
    back: Vec<u8>,
}

/// The calls of the records part. It begins with the first call on records; the schedule
/// and the stream of before are found by the calls that show them.
fn made() -> Vec<Made> {
    let (mut schedule, mut stream) = (Schedule::ZERO, Stream::ZERO);
    let (mut kept, mut made) = (Kept::ZERO, Vec::new());
    for call in calls(&script(Extent::Whole)) {
        let back = kept.make(call.clone());
        if (0x12..=0x13).contains(&call.number()) {
            made.push(Made {
                call: call.clone(),
                schedule: schedule.clone(),
                stream: stream.clone(),
                back: back.clone(),
            });
        }
        match call {
            Call::SetUp { .. } => schedule = schedule_from(back[1..].try_into().unwrap()),
            Call::KeepSchedule(bytes) => schedule = schedule_from(&bytes),
            Call::KeepStream(bytes) => stream = stream_from(&bytes),
            Call::Start { .. } | Call::Piece { .. } | Call::Finish | Call::TakeUp { .. } => {
                let behind = back.len() - 331;
                stream = stream_from(back[behind..].try_into().unwrap());
            }
            _ => {}
        }
    }
    made
}

fn lay_downs() -> Vec<(Made, usize, u8)> {
    let made = made().into_iter();
    made.filter_map(|made| match made.call {
        Call::LayDown { buffer } => Some((made, buffer.room, buffer.filler)),
        _ => None,
    })
    .collect()
}

fn take_ups() -> Vec<(Made, Vec<u8>)> {
    let made = made().into_iter();
    made.filter_map(|made| match made.call.clone() {
        Call::TakeUp { record } => Some((made, record)),
        _ => None,
    })
    .collect()
}

#[test]
fn every_call_is_answered_as_it_is_field_by_field() {
    for (made, record) in take_ups() {
        let (answer, stream) = taken_up(&made.schedule, &record);
        let expected = [&[answer][..], &stream_bytes(&stream)].concat();
        assert!(made.back == expected, "{record:?}");
    }
    for (made, room, filler) in lay_downs() {
        let back = lay_down(&made.stream, &vec![filler; room]);
        assert_eq!(made.back[0], back.answer.number());
        assert_eq!(made.back[1..], back.out);
    }
}

/// Cipher, key length and direction of a stream.
fn kind(stream: &Stream) -> (u8, u8, u8) {
    let schedule = &stream.schedule;
    (schedule.cipher, schedule.key_length, stream.direction)
}

#[test]
fn every_kind_is_laid_down_at_counts_0_to_33_and_closed() {
    let done = lay_downs()
        .into_iter()
        .filter(|(made, ..)| made.back[0] == 0);
    let found: BTreeSet<_> = done
        .map(|(made, ..)| (kind(&made.stream), made.stream.count, made.stream.closed))
        .collect();
    for (cipher, key_length) in LEGAL {
        for direction in [1, 2] {
            let kind = (cipher, key_length, direction);
            assert!((0..34).all(|count| found.contains(&(kind, count, false))));
            assert!([0, 16, 32].map(|count| found.contains(&(kind, count, true))) == [true; 3]);
        }
    }
}

#[test]
fn streams_next_to_the_limit_are_laid_down_and_taken_up() {
    let laid = lay_downs()
        .into_iter()
        .filter(|(made, ..)| made.back[0] == 0);
    let laid: BTreeSet<_> = laid
        .map(|(made, ..)| (made.stream.count, made.stream.closed))
        .collect();
    let taken = take_ups().into_iter().filter(|(made, _)| made.back[0] == 0);
    let taken: BTreeSet<_> = taken
        .map(|(made, _)| stream_from(made.back[1..].try_into().unwrap()))
        .map(|stream| (stream.count, stream.closed))
        .collect();
    for found in [laid, taken] {
        for under in [0, 1, 2, 15, 16, 17, 32, 33] {
            assert!(found.contains(&(LIMIT - under, false)), "{under}");
        }
        assert!(found.contains(&(LIMIT, true)));
    }
}

#[test]
fn rooms_about_40_and_several_fillers_stand_in_the_script() {
    let mut fillers: BTreeSet<(usize, u8)> = BTreeSet::new();
    let mut found: BTreeSet<(usize, bool, u8)> = BTreeSet::new();
    for (made, room, filler) in lay_downs() {
        fillers.insert((room, filler));
        found.insert((room, made.stream.closed, made.back[0]));
    }
    for room in [0, 39, 40, 41, 80, 296, 8192] {
        let number = fillers.iter().filter(|(found, _)| *found == room).count();
        assert!(number >= 3, "{room}");
    }
    for closed in [false, true] {
        for (room, answer) in [(0, 9), (39, 9), (40, 0), (41, 0), (80, 0)] {
            assert!(found.contains(&(room, closed, answer)));
        }
    }
}

/// The causes of a bad state, one bit each.
fn bad_for(stream: &Stream) -> u8 {
    let unused = &stream.held[stream.held_number()..];
    let causes = [
        stream.schedule.is_bad(),
        !(1..=2).contains(&stream.direction),
        stream.count > LIMIT,
        unused.iter().any(|&byte| byte != 0),
        stream.closed && stream.held_number() > 0,
    ];
    (0..).zip(causes).map(|(i, c)| u8::from(c) << i).sum()
}

#[test]
fn each_cause_of_a_bad_state_is_laid_down_alone_with_room_and_without() {
    let mut found: BTreeSet<(u8, bool)> = BTreeSet::new();
    for (made, room, _) in lay_downs() {
        let causes = bad_for(&made.stream);
        assert_eq!(made.back[0] == 6, causes != 0);
        found.insert((causes, room < 40));
    }
    for cause in [1, 2, 4, 8, 16] {
        assert!(found.contains(&(cause, false)) && found.contains(&(cause, true)));
    }
}

/// Whether the schedule is bad, the causes of 15, whether the schedule is another.
fn all_causes() -> BTreeSet<(bool, Vec<Cause>, bool)> {
    let take_ups = take_ups().into_iter();
    take_ups
        .map(|(made, record)| {
            let other = differ(&made.schedule, &record);
            (made.schedule.is_bad(), causes(&record), other)
        })
        .collect()
}

#[test]
fn each_cause_of_15_stands_alone_with_16_and_with_5() {
    let found = all_causes();
    for cause in CAUSES {
        let own_number = cause == Cause::Cipher || cause == Cause::KeyLength;
        for (bad, other) in [(false, false), (false, true), (true, false), (true, true)] {
            let there = found.contains(&(bad, vec![cause], other));
            assert!(there || (own_number && !other), "{cause:?} {bad} {other}");
        }
    }
    for (bad, other) in [(false, false), (false, true), (true, false), (true, true)] {
        assert!(found.contains(&(bad, vec![], other)));
    }
}

/// A closed byte can't be 1 and over 1; an illegal cipher or key length in the record
/// differs from any good schedule.
#[test]
fn causes_of_15_stand_in_pairs() {
    let found = all_causes();
    for (number, &first) in CAUSES.iter().enumerate() {
        for &second in &CAUSES[number + 1..] {
            let pair = vec![first, second];
            let there = found.iter().any(|(bad, causes, _)| !bad && *causes == pair);
            let closed = pair == [Cause::ClosedByte, Cause::ClosedWithBytesHeld];
            assert!(there || closed, "{pair:?}");
        }
    }
}

#[test]
fn each_of_the_40_bytes_is_changed_in_good_records() {
    let take_ups = take_ups();
    let mut changed: Vec<BTreeSet<(u8, u8)>> = vec![BTreeSet::new(); 40];
    let mut good: Option<&[u8]> = None;
    for (made, record) in &take_ups {
        let differing =
            |good: &[u8]| -> Vec<usize> { (0..40).filter(|&i| good[i] != record[i]).collect() };
        match good {
            Some(good) if record.len() == 40 && differing(good).len() == 1 => {
                let place = differing(good)[0];
                changed[place].insert((good[0], record[place]));
            }
            _ => good = (made.back[0] == 0).then_some(&record[..]),
        }
    }
    for (place, values) in changed.iter().enumerate() {
        let ciphers: BTreeSet<u8> = values.iter().map(|&(cipher, _)| cipher).collect();
        assert!(values.len() >= 12 && ciphers.len() == 4, "{place}");
    }
}

#[test]
fn records_of_every_length_up_to_48_and_of_8192_stand_in_the_script() {
    let lengths: BTreeSet<usize> = take_ups().iter().map(|(_, record)| record.len()).collect();
    assert!((0..=48)
        .chain([80, 296, 8192])
        .all(|length| lengths.contains(&length)));
}

/// The same record under each schedule that can be told apart, and under another key.
#[test]
fn every_schedule_meets_records_of_every_kind() {
    let mut found: BTreeSet<([u8; 2], [u8; 2], u8)> = BTreeSet::new();
    for (made, record) in take_ups() {
        if causes(&record).is_empty() && !made.schedule.is_bad() {
            let schedule = [made.schedule.cipher, made.schedule.key_length];
            found.insert((schedule, [record[0], record[1]], made.back[0]));
        }
    }
    assert_eq!(found.len(), LEGAL.len() * LEGAL.len());
    assert!(found
        .iter()
        .all(|(a, b, answer)| (a == b) == (*answer == 0)));
}

#[test]
fn a_record_taken_up_and_laid_down_again_gives_itself() {
    let mut number = 0;
    for two in made().windows(2) {
        if let (Call::TakeUp { record }, Call::LayDown { .. }) = (&two[0].call, &two[1].call) {
            let taken_up = stream_from(two[0].back[1..].try_into().unwrap());
            if two[0].back[0] == 0 && two[1].back[0] == 0 && two[1].stream == taken_up {
                assert_eq!(two[1].back[1..41], record[..]);
                number += 1;
            }
        }
    }
    assert!(number > 400, "{number}");
}

/// Pieces are fed, and streams finished, that were taken up. The part ends where cards are
/// compared.
#[test]
fn the_part_has_its_calls() {
    let all = calls(&script(Extent::Whole));
    let first = |number: u8| all.iter().position(|call| call.number() == number).unwrap();
    let part = &all[first(0x12)..first(0x14)];
    let number_of = |number: u8| part.iter().filter(|call| call.number() == number).count();
    for (call, at_least) in [(5, 900), (6, 100), (0x12, 1500), (0x13, 2500)] {
        assert!(number_of(call) >= at_least, "{call}: {}", number_of(call));
    }
}
