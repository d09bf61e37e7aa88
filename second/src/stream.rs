//! The CBC stream: its record, start, feed and finish.
//! Follows document 01, 'The two records' and 'Refusal numbers'.

use crate::bytes::{part, Block};
use crate::cbc;
use crate::cipher::{written_over, Schedule};
use crate::refusal::Answer;

pub const ENCIPHER: u8 = 1;
pub const DECIPHER: u8 = 2;

pub fn is_direction(number: u64) -> bool {
    number == u64::from(ENCIPHER) || number == u64::from(DECIPHER)
}

/// Any value is a stream; a bad one is refused by the calls.
#[derive(Clone, Debug, PartialEq, Eq)]
pub struct Stream {
    pub schedule: Schedule,
    pub direction: u8,
    pub count: u64,
    pub chain: Block,
    pub held: [u8; 15],
    pub closed: bool,
}

impl Stream {
    pub const LIMIT: u64 = 1_048_576;

    pub const ZERO: Stream = Stream {
        schedule: Schedule::ZERO,
        direction: 0,
        count: 0,
        chain: [0; 16],
        held: [0; 15],
        closed: false,
    };

    pub fn held_number(&self) -> usize {
        (self.count % 16) as usize
    }

    pub fn is_bad(&self) -> bool {
        let unused = &self.held[self.held_number()..];
        self.schedule.is_bad()
            || !is_direction(self.direction.into())
            || self.count > Stream::LIMIT
            || unused.iter().any(|&byte| byte != 0)
            || (self.closed && self.held_number() != 0)
    }
}

/// What start and finish give back.
#[derive(Clone, Debug, PartialEq, Eq)]
pub struct Next {
    pub answer: Answer,
    pub stream: Stream,
}

pub fn start(schedule: &Schedule, direction: u64, first: &[u8]) -> Next {
    let answer = Answer::first(&[
        (Answer::BadSchedule, schedule.is_bad()),
        (Answer::Direction, !is_direction(direction)),
        (Answer::FirstBlockLength, first.len() != 16),
    ]);
    let stream = match answer {
        Answer::Done => Stream {
            schedule: schedule.clone(),
            direction: direction as u8,
            chain: part(first, 0),
            ..Stream::ZERO
        },
        _ => Stream::ZERO,
    };
    Next { answer, stream }
}

/// What a piece gives back: `out` is the output as it is afterwards.
#[derive(Clone, Debug, PartialEq, Eq)]
pub struct Fed {
    pub answer: Answer,
    pub written: u64,
    pub out: Vec<u8>,
    pub stream: Stream,
}

pub fn feed(stream: &Stream, piece: &[u8], out: &[u8]) -> Fed {
    let before = u128::from(stream.count);
    let after = before + piece.len() as u128;
    let to_be_written = 16 * (after / 16 - before / 16);
    let answer = Answer::first(&[
        (Answer::BadState, stream.is_bad()),
        (Answer::Closed, stream.closed),
        (Answer::OverLimit, after > u128::from(Stream::LIMIT)),
        (Answer::NoRoom, (out.len() as u128) < to_be_written),
    ]);
    match answer {
        Answer::Done => accepted(stream, piece, out),
        _ => Fed {
            answer,
            written: 0,
            out: out.to_vec(),
            stream: stream.clone(),
        },
    }
}

/// Everything follows from the list of whole blocks in held ++ piece and what is left over.
fn accepted(stream: &Stream, piece: &[u8], out: &[u8]) -> Fed {
    let bytes = [&stream.held[..stream.held_number()], piece].concat();
    let whole = bytes.chunks_exact(16);
    let left_over = whole.remainder();
    let taken: Vec<Block> = whole.map(|block| part(block, 0)).collect();
    let given = worked(stream, &taken);
    let front = given.concat();
    let ciphertext = if stream.direction == ENCIPHER {
        &given
    } else {
        &taken
    };
    let mut held = [0; 15];
    held[..left_over.len()].copy_from_slice(left_over);
    Fed {
        answer: Answer::Done,
        written: front.len() as u64,
        out: written_over(out, &front),
        stream: Stream {
            count: stream.count + piece.len() as u64,
            chain: *ciphertext.last().unwrap_or(&stream.chain),
            held,
            ..stream.clone()
        },
    }
}

fn worked(stream: &Stream, blocks: &[Block]) -> Vec<Block> {
    let schedule = &stream.schedule;
    if stream.direction == ENCIPHER {
        cbc::encipher(|block| schedule.encipher(block), stream.chain, blocks)
    } else {
        cbc::decipher(|block| schedule.decipher(block), stream.chain, blocks)
    }
}

pub fn finish(stream: &Stream) -> Next {
    let answer = Answer::first(&[
        (Answer::BadState, stream.is_bad()),
        (Answer::Closed, stream.closed),
        (Answer::BytesHeld, stream.held_number() != 0),
    ]);
    let closed = stream.closed || answer == Answer::Done;
    let stream = Stream {
        closed,
        ..stream.clone()
    };
    Next { answer, stream }
}
