//! A script while it is written, with the schedule and the stream that it then keeps, so
//! that a record that was laid down can be taken up later.
//! Follows the page on replay, 'Request 5'.

use crate::cipher::{set_up, Schedule};
use crate::random::Random;
use crate::reading::{lay_down, record_of, take_up};
use crate::replay::script::{room, Script};
use crate::replay::streams::written;
use crate::stream::{feed, finish, start, Stream};

pub struct Told<'a> {
    pub script: &'a mut Script,
    pub schedule: Schedule,
    pub stream: Stream,
}

impl<'a> Told<'a> {
    pub fn new(script: &'a mut Script) -> Told<'a> {
        Told {
            script,
            schedule: Schedule::ZERO,
            stream: Stream::ZERO,
        }
    }

    pub fn set_up(&mut self, cipher: u8, key: &[u8]) {
        self.script.set_up(cipher.into(), key);
        self.schedule = set_up(cipher.into(), key).schedule;
    }

    /// A key at random for this cipher and key length.
    pub fn any_set_up(&mut self, random: &mut Random, (cipher, key_length): (u8, u8)) {
        self.set_up(cipher, &random.bytes(key_length.into()));
    }

    pub fn keep_schedule(&mut self, schedule: &Schedule) {
        self.script.keep_schedule(schedule);
        self.schedule = schedule.clone();
    }

    pub fn keep_stream(&mut self, stream: &Stream) {
        self.script.keep_stream(stream);
        self.stream = stream.clone();
    }

    pub fn start(&mut self, direction: u64, first: &[u8]) {
        self.script.start(direction, first);
        self.stream = start(&self.schedule, direction, first).stream;
    }

    pub fn piece(&mut self, piece: &[u8], space: usize, filler: u8) {
        let buffer = room(space, filler);
        self.script.piece(piece, buffer);
        self.stream = feed(&self.stream, piece, &buffer.bytes()).stream;
    }

    /// A piece at random with room enough.
    pub fn any_piece(&mut self, random: &mut Random, length: usize) {
        let space = written(self.stream.held_number(), length) + random.one_of(&[0, 0, 1, 16]);
        self.piece(&random.bytes(length), space, random.byte());
    }

    pub fn finish(&mut self) {
        self.script.finish();
        self.stream = finish(&self.stream).stream;
    }

    pub fn lay_down(&mut self, space: usize, filler: u8) -> Vec<u8> {
        let buffer = room(space, filler);
        self.script.lay_down(buffer);
        lay_down(&self.stream, &buffer.bytes()).out
    }

    pub fn take_up(&mut self, record: &[u8]) {
        self.script.take_up(record);
        self.stream = take_up(&self.schedule, record).stream;
    }

    /// Laid down and taken up again.
    pub fn stop(&mut self, random: &mut Random) {
        let space = 40 + random.one_of(&[0, 0, 0, 1, 8, 17]);
        let out = self.lay_down(space, random.byte());
        self.take_up(&out[..40]);
    }

    /// A record taken up, and whatever comes of it laid down.
    pub fn take_up_and_lay_down(&mut self, random: &mut Random, record: &[u8]) {
        self.take_up(record);
        self.lay_down(40, random.byte());
    }

    /// The record of a stream in the midst of a message under the kept schedule.
    pub fn any_record(&self, random: &mut Random, count: u64) -> Vec<u8> {
        let schedule = &self.schedule;
        let mut stream = Stream {
            schedule: schedule.clone(),
            direction: random.one_of(&[1, 2]),
            count,
            chain: random.array(),
            ..Stream::ZERO
        };
        for place in 0..stream.held_number() {
            stream.held[place] = random.mark();
        }
        record_of(&stream)
    }
}
