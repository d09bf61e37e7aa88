//! The records as bytes: a schedule in 290, a stream in 331, a seal state in as many.
//! Follows the page on replay, its third paragraph and 'Request 3'.

use crate::cipher::{Schedule, ROUND_KEY_BYTES};
use crate::seal::Seal;
use crate::stream::Stream;

pub const SCHEDULE_BYTES: usize = 290;
pub const STREAM_BYTES: usize = 331;
pub const SEAL_BYTES: usize = 331;

const DIRECTION: usize = SCHEDULE_BYTES;
const COUNT: usize = DIRECTION + 1;
const CHAIN: usize = COUNT + 8;
const HELD: usize = CHAIN + 16;
pub const CLOSED: usize = HELD + 15;

const SEAL_COUNT: usize = SCHEDULE_BYTES;
const SEAL_CHAIN: usize = SEAL_COUNT + 8;
const SEAL_HELD: usize = SEAL_CHAIN + 16;
pub const SEAL_CLOSED: usize = SEAL_HELD + 16;

pub fn schedule_bytes(schedule: &Schedule) -> [u8; SCHEDULE_BYTES] {
    let mut bytes = [0; SCHEDULE_BYTES];
    bytes[0] = schedule.cipher;
    bytes[1] = schedule.key_length;
    bytes[2..].copy_from_slice(&schedule.round_keys);
    bytes
}

pub fn schedule_from(bytes: &[u8; SCHEDULE_BYTES]) -> Schedule {
    Schedule {
        cipher: bytes[0],
        key_length: bytes[1],
        round_keys: at::<ROUND_KEY_BYTES>(bytes, 2),
    }
}

pub fn stream_bytes(stream: &Stream) -> [u8; STREAM_BYTES] {
    let mut bytes = [0; STREAM_BYTES];
    bytes[..DIRECTION].copy_from_slice(&schedule_bytes(&stream.schedule));
    bytes[DIRECTION] = stream.direction;
    bytes[COUNT..CHAIN].copy_from_slice(&stream.count.to_be_bytes());
    bytes[CHAIN..HELD].copy_from_slice(&stream.chain);
    bytes[HELD..CLOSED].copy_from_slice(&stream.held);
    bytes[CLOSED] = u8::from(stream.closed);
    bytes
}

/// The stream of these bytes; a closed byte over 1 counts as 1.
pub fn stream_from(bytes: &[u8; STREAM_BYTES]) -> Stream {
    Stream {
        schedule: schedule_from(&at(bytes, 0)),
        direction: bytes[DIRECTION],
        count: u64::from_be_bytes(at(bytes, COUNT)),
        chain: at(bytes, CHAIN),
        held: at(bytes, HELD),
        closed: bytes[CLOSED] != 0,
    }
}

pub fn seal_bytes(seal: &Seal) -> [u8; SEAL_BYTES] {
    let mut bytes = [0; SEAL_BYTES];
    bytes[..SEAL_COUNT].copy_from_slice(&schedule_bytes(&seal.schedule));
    bytes[SEAL_COUNT..SEAL_CHAIN].copy_from_slice(&seal.count.to_be_bytes());
    bytes[SEAL_CHAIN..SEAL_HELD].copy_from_slice(&seal.chain);
    bytes[SEAL_HELD..SEAL_CLOSED].copy_from_slice(&seal.held);
    bytes[SEAL_CLOSED] = u8::from(seal.closed);
    bytes
}

/// The seal state of these bytes; a closed byte over 1 counts as 1.
pub fn seal_from(bytes: &[u8; SEAL_BYTES]) -> Seal {
    Seal {
        schedule: schedule_from(&at(bytes, 0)),
        count: u64::from_be_bytes(at(bytes, SEAL_COUNT)),
        chain: at(bytes, SEAL_CHAIN),
        held: at(bytes, SEAL_HELD),
        closed: bytes[SEAL_CLOSED] != 0,
    }
}

fn at<const N: usize>(bytes: &[u8], place: usize) -> [u8; N] {
    std::array::from_fn(|i| bytes[place + i])
}
