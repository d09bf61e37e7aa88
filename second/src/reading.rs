//! A reading laid down: a stream as a record of 40 bytes, and the stream taken up again.
//! Follows document 02, request 5.

use crate::bytes::part;
use crate::cipher::{written_over, Schedule};
use crate::refusal::Answer;
use crate::stream::{Next, Stream};

pub const RECORD_BYTES: usize = 40;

/// How many bytes each field takes: cipher, key length, direction, closed, count, chain,
/// held bytes.
const WIDTHS: [usize; 7] = [1, 1, 1, 1, 4, 16, 16];

/// What laying down gives back: `out` is the output as it is afterwards.
#[derive(Clone, Debug, PartialEq, Eq)]
pub struct LaidDown {
    pub answer: Answer,
    pub out: Vec<u8>,
}

pub fn lay_down(stream: &Stream, out: &[u8]) -> LaidDown {
    let answer = Answer::first(&[
        (Answer::BadState, stream.is_bad()),
        (Answer::NoRoom, out.len() < RECORD_BYTES),
    ]);
    let out = match answer {
        Answer::Done => written_over(out, &record_of(stream)),
        _ => out.to_vec(),
    };
    LaidDown { answer, out }
}

/// The record of a stream that isn't bad; round keys aren't in it.
pub fn record_of(stream: &Stream) -> Vec<u8> {
    let head = [
        stream.schedule.cipher,
        stream.schedule.key_length,
        stream.direction,
        u8::from(stream.closed),
    ];
    let count = (stream.count as u32).to_be_bytes();
    [&head[..], &count, &stream.chain, &stream.held, &[0]].concat()
}

pub fn take_up(schedule: &Schedule, record: &[u8]) -> Next {
    let found = looked_for(record);
    let kind = |schedule: &Schedule| (schedule.cipher, schedule.key_length);
    let answer = Answer::first(&[
        (Answer::BadSchedule, schedule.is_bad()),
        (
            Answer::BadReading,
            found.is_bad() || record_of(&found) != record,
        ),
        (
            Answer::OtherSchedule,
            kind(schedule) != kind(&found.schedule),
        ),
    ]);
    let stream = match answer {
        Answer::Done => Stream {
            schedule: schedule.clone(),
            ..found
        },
        _ => Stream::ZERO,
    };
    Next { answer, stream }
}

/// The only stream, but for its round keys, that can have been laid down as this record.
/// Zeros stand for the round keys, which are as legal as any.
fn looked_for(record: &[u8]) -> Stream {
    let [cipher, key_length, direction, closed, count, chain, held] = fields(record);
    Stream {
        schedule: Schedule::with(cipher as u8, key_length as u8, &[]),
        direction: direction as u8,
        count: count as u64,
        chain: chain.to_be_bytes(),
        held: part(&held.to_be_bytes(), 0),
        closed: closed == 1,
    }
}

/// Each field as a number; bytes that are missing count as zero.
fn fields(record: &[u8]) -> [u128; 7] {
    let mut bytes = record.iter().copied().chain(std::iter::repeat(0));
    WIDTHS.map(|width| {
        let field = bytes.by_ref().take(width);
        field.fold(0, |number, byte| number << 8 | u128::from(byte))
    })
}
