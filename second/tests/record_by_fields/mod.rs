//! A record looked at field by field, place by place: its faults, and the stream in it.
//! Follows document 02, request 5, and document 01, 'The two records'.

use second::cipher::Schedule;
use second::stream::Stream;

/// The causes of 15, each for itself.
#[derive(Clone, Copy, Debug, PartialEq, Eq, PartialOrd, Ord)]
pub enum Cause {
    Length,
    Cipher,
    KeyLength,
    Direction,
    ClosedByte,
    ClosedWithBytesHeld,
    Count,
    UnusedHeldByte,
    LastHeldByte,
}

pub const CAUSES: [Cause; 9] = [
    Cause::Length,
    Cause::Cipher,
    Cause::KeyLength,
    Cause::Direction,
    Cause::ClosedByte,
    Cause::ClosedWithBytesHeld,
    Cause::Count,
    Cause::UnusedHeldByte,
    Cause::LastHeldByte,
];

fn has(record: &[u8; 40], cause: Cause) -> bool {
    let [cipher, key_length, direction, closed] = [record[0], record[1], record[2], record[3]];
    let count = u32::from_be_bytes([record[4], record[5], record[6], record[7]]);
    let held = count as usize % 16;
    match cause {
        Cause::Length => false,
        Cause::Cipher => !(1..=4).contains(&cipher),
        Cause::KeyLength if cipher == 3 || cipher == 4 => key_length != 16,
        Cause::KeyLength => key_length != 16 && key_length != 24 && key_length != 32,
        Cause::Direction => !(1..=2).contains(&direction),
        Cause::ClosedByte => closed > 1,
        Cause::ClosedWithBytesHeld => closed == 1 && held > 0,
        Cause::Count => count > 1_048_576,
        Cause::UnusedHeldByte => (held..15).any(|i| record[24 + i] != 0),
        Cause::LastHeldByte => record[39] != 0,
    }
}

/// Every cause that a record has; of a longer one those of its first 40 bytes beside the
/// length, of a shorter one the length alone.
pub fn causes(record: &[u8]) -> Vec<Cause> {
    let mut found = Vec::new();
    if record.len() != 40 {
        found.push(Cause::Length);
    }
    if record.len() >= 40 {
        let front = record[..40].try_into().unwrap();
        found.extend(CAUSES.into_iter().filter(|&cause| has(&front, cause)));
    }
    found
}

/// Whether the schedule is of another cipher or key length than the record.
pub fn differ(schedule: &Schedule, record: &[u8]) -> bool {
    record.len() >= 2 && [schedule.cipher, schedule.key_length] != record[..2]
}

pub fn answer(schedule: &Schedule, record: &[u8]) -> u8 {
    if schedule.is_bad() {
        5
    } else if !causes(record).is_empty() {
        15
    } else if differ(schedule, record) {
        16
    } else {
        0
    }
}

/// What taking up is to give back.
pub fn taken_up(schedule: &Schedule, record: &[u8]) -> (u8, Stream) {
    let answer = answer(schedule, record);
    let mut stream = Stream::ZERO;
    if answer == 0 {
        stream.schedule = schedule.clone();
        stream.direction = record[2];
        stream.closed = record[3] == 1;
        for &byte in &record[4..8] {
            stream.count = 256 * stream.count + u64::from(byte);
        }
        stream.chain.copy_from_slice(&record[8..24]);
        stream.held.copy_from_slice(&record[24..39]);
    }
    (answer, stream)
}
