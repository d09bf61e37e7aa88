//! A script made call by call, with everything that comes back written out.
//! Follows the page on replay.

use super::call::{string, Call};
use super::reader::Reader;
use super::record::{schedule_bytes, schedule_from, seal_bytes, seal_from};
use super::record::{stream_bytes, stream_from};
use crate::card::{find, good, put, Put};
use crate::cipher::{decipher_block, encipher_block, set_up, OneBlock, Schedule};
use crate::compare::compare;
use crate::entry::entry;
use crate::reading::{lay_down, take_up, LaidDown};
use crate::seal::{self, Seal};
use crate::stream::{feed, finish, start, Next, Stream};

const BROKEN: u8 = 0xFF;

/// The answers to a script; a broken one ends with the byte FF.
pub fn run(script: &[u8]) -> Vec<u8> {
    let mut reader = Reader::new(script);
    let mut kept = Kept::ZERO;
    let mut answers = Vec::new();
    while !reader.at_end() {
        match reader.call() {
            Some(call) => answers.extend(kept.make(call)),
            None => {
                answers.push(BROKEN);
                break;
            }
        }
    }
    answers
}

/// The one schedule, the one stream and the one seal state that a script works with.
pub struct Kept {
    schedule: Schedule,
    stream: Stream,
    seal: Seal,
}

impl Kept {
    pub const ZERO: Kept = Kept {
        schedule: Schedule::ZERO,
        stream: Stream::ZERO,
        seal: Seal::ZERO,
    };

    /// Makes the call and gives what is written for it.
    pub fn make(&mut self, call: Call) -> Vec<u8> {
        match call {
            Call::SetUp { cipher, key } => self.set_up(cipher, &key),
            Call::Encipher { block, buffer } => {
                one_block(encipher_block(&self.schedule, &block, &buffer.bytes()))
            }
            Call::Decipher { block, buffer } => {
                one_block(decipher_block(&self.schedule, &block, &buffer.bytes()))
            }
            Call::Start { direction, first } => self.next(start(&self.schedule, direction, &first)),
            Call::Piece { piece, buffer } => self.feed(&piece, &buffer.bytes()),
            Call::Finish => self.next(finish(&self.stream)),
            Call::Entry {
                cipher,
                direction,
                key,
                block,
                buffer,
            } => one_block(entry(cipher, direction, &key, &block, &buffer.bytes())),
            Call::KeepSchedule(bytes) => keep(&mut self.schedule, schedule_from(&bytes)),
            Call::KeepStream(bytes) => keep(&mut self.stream, stream_from(&bytes)),
            Call::IsGood { card } => vec![u8::from(good(&card))],
            Call::Find {
                card,
                recipe,
                segment,
            } => string(find(&card, recipe, segment)),
            Call::Put { card, record } => put_card(put(&card, &record)),
            Call::StartSeal => self.next_seal(seal::start(&self.schedule)),
            Call::PieceOfSeal { piece } => self.next_seal(seal::feed(&self.seal, &piece)),
            Call::WriteSeal { buffer } => self.write_seal(&buffer.bytes()),
            Call::CheckSeal { given } => self.check_seal(&given),
            Call::KeepSeal(bytes) => keep(&mut self.seal, seal_from(&bytes)),
            Call::LayDown { buffer } => laid_down(lay_down(&self.stream, &buffer.bytes())),
            Call::TakeUp { record } => self.next(take_up(&self.schedule, &record)),
            Call::Compare { cards, buffer } => compared(&cards, &buffer.bytes()),
        }
    }

    fn set_up(&mut self, cipher: u64, key: &[u8]) -> Vec<u8> {
        let back = set_up(cipher, key);
        self.schedule = back.schedule;
        let schedule = schedule_bytes(&self.schedule);
        [&[back.answer.number()], &schedule[..]].concat()
    }

    fn next(&mut self, back: Next) -> Vec<u8> {
        self.stream = back.stream;
        let stream = stream_bytes(&self.stream);
        [&[back.answer.number()], &stream[..]].concat()
    }

    fn feed(&mut self, piece: &[u8], out: &[u8]) -> Vec<u8> {
        let back = feed(&self.stream, piece, out);
        self.stream = back.stream;
        let written = back.written.to_be_bytes();
        let stream = stream_bytes(&self.stream);
        [&[back.answer.number()], &written[..], &back.out, &stream].concat()
    }

    fn next_seal(&mut self, back: seal::Next) -> Vec<u8> {
        self.seal = back.seal;
        let seal = seal_bytes(&self.seal);
        [&[back.answer.number()], &seal[..]].concat()
    }

    fn write_seal(&mut self, out: &[u8]) -> Vec<u8> {
        let back = seal::write(&self.seal, out);
        self.seal = back.seal;
        let seal = seal_bytes(&self.seal);
        [&[back.answer.number()], &back.out[..], &seal].concat()
    }

    fn check_seal(&mut self, given: &[u8]) -> Vec<u8> {
        let back = seal::check(&self.seal, given);
        self.seal = back.seal;
        let seal = seal_bytes(&self.seal);
        [&[back.answer.number(), u8::from(back.yes)], &seal[..]].concat()
    }
}

/// Nothing is written for a record that is kept.
fn keep<T>(kept: &mut T, record: T) -> Vec<u8> {
    *kept = record;
    Vec::new()
}

fn one_block(back: OneBlock) -> Vec<u8> {
    [&[back.answer.number()], &back.out[..]].concat()
}

fn laid_down(back: LaidDown) -> Vec<u8> {
    [&[back.answer.number()], &back.out[..]].concat()
}

fn put_card(back: Put) -> Vec<u8> {
    [&[back.answer.number()], &back.card[..]].concat()
}

fn compared([first, second]: &[Vec<u8>; 2], out: &[u8]) -> Vec<u8> {
    let back = compare(first, second, out);
    let written = back.written.to_be_bytes();
    [&[back.answer.number()], &written[..], &back.out].concat()
}
