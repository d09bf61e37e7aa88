//! A script while it is written, and the lists of values that its parts try.
//! Follows document 01 for what is legal and what stands next to it.

use super::call::{Buffer, Call};
use super::record::{schedule_bytes, seal_bytes, stream_bytes};
use crate::cipher::{is_blank, is_key_length, schedule_of, Schedule};
use crate::seal::Seal;
use crate::stream::Stream;

/// Directions: the legal ones, others, and those that merely end in a legal one.
pub const DIRECTIONS: [u64; 14] = [
    0,
    1,
    2,
    3,
    4,
    255,
    256,
    257,
    258,
    259,
    (1 << 32) + 1,
    (1 << 32) + 2,
    (1 << 63) + 3,
    u64::MAX,
];

/// Key lengths about the legal ones, and those that merely end in a legal byte.
pub const KEY_LENGTHS: [usize; 15] = [0, 1, 8, 15, 16, 17, 23, 24, 25, 31, 32, 33, 272, 280, 288];
pub const BLOCK_LENGTHS: [usize; 6] = [0, 1, 15, 16, 17, 32];
pub const ROOMS: [usize; 7] = [0, 1, 15, 16, 17, 32, 100];

#[derive(Default)]
pub struct Script {
    pub bytes: Vec<u8>,
}

impl Script {
    pub fn call(&mut self, call: Call) {
        self.bytes.extend(call.bytes());
    }

    /// Behind a blank key, which is refused, stands the schedule that the definitions make
    /// of it, so that the calls behind work under it as they did before request 7.
    pub fn set_up(&mut self, cipher: u64, key: &[u8]) {
        self.set_up_alone(cipher, key);
        if is_key_length(cipher, key.len()) && is_blank(key) {
            self.keep_schedule(&schedule_of(cipher as u8, key));
        }
    }

    pub fn set_up_alone(&mut self, cipher: u64, key: &[u8]) {
        let key = key.to_vec();
        self.call(Call::SetUp { cipher, key });
    }

    pub fn encipher(&mut self, block: &[u8], buffer: Buffer) {
        let block = block.to_vec();
        self.call(Call::Encipher { block, buffer });
    }

    pub fn decipher(&mut self, block: &[u8], buffer: Buffer) {
        let block = block.to_vec();
        self.call(Call::Decipher { block, buffer });
    }

    pub fn start(&mut self, direction: u64, first: &[u8]) {
        let first = first.to_vec();
        self.call(Call::Start { direction, first });
    }

    pub fn piece(&mut self, piece: &[u8], buffer: Buffer) {
        let piece = piece.to_vec();
        self.call(Call::Piece { piece, buffer });
    }

    pub fn finish(&mut self) {
        self.call(Call::Finish);
    }

    pub fn keep_schedule(&mut self, schedule: &Schedule) {
        self.call(Call::KeepSchedule(Box::new(schedule_bytes(schedule))));
    }

    pub fn keep_stream(&mut self, stream: &Stream) {
        self.call(Call::KeepStream(Box::new(stream_bytes(stream))));
    }

    pub fn is_good(&mut self, card: &[u8]) {
        let card = card.to_vec();
        self.call(Call::IsGood { card });
    }

    pub fn find(&mut self, card: &[u8], recipe: u64, segment: u64) {
        let card = card.to_vec();
        self.call(Call::Find {
            card,
            recipe,
            segment,
        });
    }

    pub fn put(&mut self, card: &[u8], record: &[u8]) {
        let card = card.to_vec();
        let record = record.to_vec();
        self.call(Call::Put { card, record });
    }

    pub fn start_seal(&mut self) {
        self.call(Call::StartSeal);
    }

    pub fn piece_of_seal(&mut self, piece: &[u8]) {
        let piece = piece.to_vec();
        self.call(Call::PieceOfSeal { piece });
    }

    pub fn write_seal(&mut self, buffer: Buffer) {
        self.call(Call::WriteSeal { buffer });
    }

    pub fn check_seal(&mut self, given: &[u8]) {
        let given = given.to_vec();
        self.call(Call::CheckSeal { given });
    }

    pub fn keep_seal(&mut self, seal: &Seal) {
        self.call(Call::KeepSeal(Box::new(seal_bytes(seal))));
    }

    pub fn lay_down(&mut self, buffer: Buffer) {
        self.call(Call::LayDown { buffer });
    }

    pub fn take_up(&mut self, record: &[u8]) {
        let record = record.to_vec();
        self.call(Call::TakeUp { record });
    }

    pub fn compare(&mut self, first: &[u8], second: &[u8], buffer: Buffer) {
        let cards = [first.to_vec(), second.to_vec()];
        self.call(Call::Compare { cards, buffer });
    }
}

pub fn room(room: usize, filler: u8) -> Buffer {
    Buffer { room, filler }
}
