//! One run of the program: its script while it is written, and its answers looked at.
//! Follows the page on replay.

use super::Program;
use crate::random::Random;
use crate::reading::RECORD_BYTES;
use crate::refusal::Answer;
use crate::replay::call::{Buffer, Call};
use crate::replay::record::{SCHEDULE_BYTES, STREAM_BYTES};

/// What is to be written for a call: the answer, for a piece the number that it reports,
/// the buffer with so many bytes changed at its front, a schedule or stream of so many.
struct Expected {
    name: &'static str,
    answer: Answer,
    is_piece: bool,
    buffer: Buffer,
    changed: usize,
    state: usize,
}

const PLAIN: Expected = Expected {
    name: "set up",
    answer: Answer::Done,
    is_piece: false,
    buffer: Buffer { room: 0, filler: 0 },
    changed: 0,
    state: STREAM_BYTES,
};

/// What a run leaves: the bytes that its pieces wrote, and what its last call shows.
pub struct Left {
    pub written: Vec<u8>,
    pub shown: Vec<u8>,
}

pub struct Run {
    script: Vec<u8>,
    expected: Vec<Expected>,
}

impl Run {
    pub fn with_key(cipher: u64, key: &[u8]) -> Run {
        let mut run = Run {
            script: Vec::new(),
            expected: Vec::new(),
        };
        let key = key.to_vec();
        let state = SCHEDULE_BYTES;
        run.call(Call::SetUp { cipher, key }, Expected { state, ..PLAIN });
        run
    }

    fn call(&mut self, call: Call, expected: Expected) {
        self.script.extend(call.bytes());
        self.expected.push(expected);
    }

    pub fn start(&mut self, direction: u8, first: &[u8]) {
        let (direction, first) = (direction.into(), first.to_vec());
        let name = "start";
        self.call(Call::Start { direction, first }, Expected { name, ..PLAIN });
    }

    pub fn take_up(&mut self, record: &[u8]) {
        let record = record.to_vec();
        let name = "take up";
        self.call(Call::TakeUp { record }, Expected { name, ..PLAIN });
    }

    pub fn finish(&mut self) {
        let name = "finish";
        self.call(Call::Finish, Expected { name, ..PLAIN });
    }

    pub fn lay_down(&mut self, random: &mut Random) {
        let room = RECORD_BYTES + random.one_of(&[0, 0, 1, 7, 30, 200]);
        let filler = random.byte();
        let buffer = Buffer { room, filler };
        let expected = Expected {
            name: "lay down",
            buffer,
            changed: RECORD_BYTES,
            state: 0,
            ..PLAIN
        };
        self.call(Call::LayDown { buffer }, expected);
    }

    /// Pieces at random from this place of the message on; some are refused for want of
    /// room first, and tried again.
    pub fn pieces(&mut self, random: &mut Random, place: usize, bytes: &[u8]) {
        let (mut count, mut rest) = (place, bytes);
        while !rest.is_empty() {
            let length = random.one_of(&[0, 1, 2, 7, 9, 15, 16, 17, 31, 33, 64, 200]);
            let (piece, behind) = rest.split_at(length.min(rest.len()));
            let after = count + piece.len();
            let needed = 16 * (after / 16 - count / 16);
            if needed > 0 && random.below(3) == 0 {
                let room = random.below(needed);
                self.piece(piece, room, random.byte(), Answer::NoRoom, 0);
            }
            let room = needed + random.one_of(&[0, 0, 1, 16, 40]);
            self.piece(piece, room, random.byte(), Answer::Done, needed);
            (count, rest) = (after, behind);
        }
    }

    fn piece(&mut self, piece: &[u8], room: usize, filler: u8, answer: Answer, changed: usize) {
        let piece = piece.to_vec();
        let buffer = Buffer { room, filler };
        let expected = Expected {
            name: "piece",
            answer,
            is_piece: true,
            buffer,
            changed,
            ..PLAIN
        };
        self.call(Call::Piece { piece, buffer }, expected);
    }

    /// The run made, and every answer looked at.
    pub fn made(&self, program: &mut Program) -> Result<Left, String> {
        let answers = program(&self.script)?;
        let mut answers = Answers { rest: &answers };
        let mut left = Left {
            written: Vec::new(),
            shown: Vec::new(),
        };
        for expected in &self.expected {
            let (front, state) = answers.of(expected)?;
            if expected.is_piece {
                left.written.extend(front);
            }
            let shown = if expected.state == 0 { front } else { state };
            left.shown = shown.to_vec();
        }
        match answers.rest {
            [] => Ok(left),
            _ => Err("there are more answers than calls".to_string()),
        }
    }
}

struct Answers<'a> {
    rest: &'a [u8],
}

impl<'a> Answers<'a> {
    fn take(&mut self, name: &str, length: usize) -> Result<&'a [u8], String> {
        if self.rest.len() < length {
            return Err(format!("the answers stop within a call ({name})"));
        }
        let (taken, rest) = self.rest.split_at(length);
        self.rest = rest;
        Ok(taken)
    }

    /// The bytes at the front of the buffer, and the schedule or stream behind it.
    fn of(&mut self, expected: &Expected) -> Result<(&'a [u8], &'a [u8]), String> {
        let name = expected.name;
        let differs = |what| Err(format!("{what} of a call ({name}) differs"));
        let answer = self.take(name, 1)?[0];
        if answer != expected.answer.number() {
            let number = expected.answer.number();
            return Err(format!(
                "a call ({name}) answers {answer} instead of {number}"
            ));
        }
        if expected.is_piece && self.take(name, 8)? != (expected.changed as u64).to_be_bytes() {
            return differs("the number of bytes written");
        }
        let out = self.take(name, expected.buffer.room)?;
        let (front, behind) = out.split_at(expected.changed);
        if behind.iter().any(|&byte| byte != expected.buffer.filler) {
            return differs("the output behind the bytes written");
        }
        Ok((front, self.take(name, expected.state)?))
    }
}
