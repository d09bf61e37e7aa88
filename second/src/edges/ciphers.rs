//! The edge cases of the ciphers and their streams.
//! Follows document 01, 'Refusal numbers' and 'Marked cases', its last paragraph, and
//! document 02, request 2, for numbers 3 and 4, and request 7, for blank keys.

use super::{hex, BEFORE};
use crate::cipher::{encipher_block, set_up, used, Schedule};
use crate::stream::{feed, finish, start, Fed, Stream};

const LONGEST_KEY: &[u8; 33] = b"0123456789abcdefghijklmnopqrstuvw";
const BLOCK: &[u8; 16] = b"sixteen letters.";
const FIRST: &[u8; 16] = b"the first block.";
const TEXT: &[u8; 31] = b"the message of thirty-one bytes";

pub fn ciphers() -> String {
    (1..=4).map(of_cipher).collect()
}

fn of_cipher(cipher: u64) -> String {
    let schedule = set_up(cipher, &LONGEST_KEY[..16]).schedule;
    [
        format!("cipher {cipher}\n"),
        [15, 16, 17, 24, 32, 33]
            .map(|n| key(cipher, "", &LONGEST_KEY[..n]))
            .concat(),
        blank_keys(cipher),
        blank_round_keys(cipher),
        starts(&schedule),
        enciphering(&schedule),
        deciphering(&schedule),
    ]
    .concat()
}

/// A refused set-up's schedule is handed in too.
fn key(cipher: u64, bytes: &str, key: &[u8]) -> String {
    let made = set_up(cipher, key);
    let (length, answer) = (key.len(), made.answer.number());
    let block = block_under(&made.schedule);
    format!("  a key of {length} bytes{bytes}: answer {answer}; {block}")
}

fn block_under(schedule: &Schedule) -> String {
    let block = encipher_block(schedule, BLOCK, &[BEFORE; 16]);
    let (answer, out) = (block.answer.number(), hex(&block.out));
    format!("a block under it: answer {answer}, output {out}\n")
}

fn blank_keys(cipher: u64) -> String {
    let ones = |n| key(cipher, ", each ff", &vec![0xFF; n]);
    let other = |which: &str, place: usize| {
        let mut bytes = [0xFF; 16];
        bytes[place] = 0xFE;
        key(cipher, &format!(", each ff but the {which}, fe"), &bytes)
    };
    [
        [15, 16, 24, 32].map(ones).concat(),
        key(cipher, ", each 00", &[0x00; 16]),
        other("first", 0),
        other("last", 15),
    ]
    .concat()
}

/// A schedule that no set-up made.
fn blank_round_keys(cipher: u64) -> String {
    let cipher = cipher as u8;
    let schedule = Schedule::with(cipher, 16, &vec![0xFF; used(cipher, 16)]);
    let block = block_under(&schedule);
    format!("  a schedule for keys of 16 bytes, each used byte ff: {block}")
}

fn starts(schedule: &Schedule) -> String {
    let line = |name, direction, first| {
        let answer = start(schedule, direction, first).answer;
        format!("  start {name}: answer {}\n", answer.number())
    };
    [
        line("in direction 3", 3, FIRST),
        line("in direction 257", 257, FIRST),
        line("from 15 bytes", 2, &FIRST[..15]),
    ]
    .concat()
}

/// A stream while its calls are written down: its state, and the lines so far.
struct Calls {
    stream: Stream,
    text: String,
}

impl Calls {
    fn started(name: &str, schedule: &Schedule, direction: u64) -> Calls {
        let next = start(schedule, direction, FIRST);
        Calls {
            stream: next.stream,
            text: format!("  {name}: answer {}\n", next.answer.number()),
        }
    }

    /// The same stream, before any of its calls.
    fn from(stream: &Stream) -> Calls {
        Calls {
            stream: stream.clone(),
            text: String::new(),
        }
    }

    fn feed(&mut self, name: &str, piece: &[u8], room: usize) -> Fed {
        let back = feed(&self.stream, piece, &vec![BEFORE; room]);
        let (answer, written) = (back.answer.number(), back.written);
        self.text += &format!("  {name}: answer {answer}, writes {written}, ");
        self.stream = back.stream.clone();
        back
    }

    fn piece(mut self, name: &str, piece: &[u8], room: usize) -> Calls {
        let back = self.feed(name, piece, room);
        self.text += &format!("output {}\n", hex(&back.out));
        self
    }

    fn long_piece(mut self, name: &str, piece: &[u8]) -> Calls {
        let back = self.feed(name, piece, piece.len());
        let end = &back.out[piece.len() - 16..];
        self.text += &format!("the last 16 {}\n", hex(end));
        self
    }

    fn holds(mut self) -> Calls {
        self.text += &format!("  it holds {}\n", self.stream.held_number());
        self
    }

    fn finish(mut self, name: &str) -> Calls {
        let next = finish(&self.stream);
        self.text += &format!("  {name}: answer {}\n", next.answer.number());
        self.stream = next.stream;
        self
    }
}

fn enciphering(schedule: &Schedule) -> String {
    let Calls { stream, text } = Calls::started("start to encipher", schedule, 1);
    let again = || Calls::from(&stream);
    let calls = [
        again()
            .piece("a piece of 7", &TEXT[..7], 16)
            .piece("then a piece of 9", &TEXT[7..16], 16)
            .finish("then finish")
            .piece("then a piece of 1", &TEXT[..1], 16),
        again()
            .piece("a piece of 31", TEXT, 16)
            .holds()
            .finish("then finish")
            .piece("then a piece of 1", &TEXT[..1], 16),
        again()
            .piece("a piece of 16 into 15 of room", &TEXT[..16], 15)
            .piece("then again, into 16", &TEXT[..16], 16),
        again().finish("an empty message finished"),
    ];
    text + &calls.map(|calls| calls.text).concat()
}

fn deciphering(schedule: &Schedule) -> String {
    let million = vec![3; Stream::LIMIT as usize];
    Calls::started("start to decipher", schedule, 2)
        .long_piece("1048576 bytes at once", &million)
        .piece("then 1 more", &[3], 16)
        .piece("then an empty piece", &[], 16)
        .finish("then finish")
        .text
}
