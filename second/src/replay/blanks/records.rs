//! Schedules whose used bytes are all equal: no call asks which key they come from.
//! Follows document 02, request 7.

use super::Blanks;
use crate::cipher::{used, Schedule, NOEKEON, NOEKEON_EARLIER, ROUND_KEY_BYTES};
use crate::replay::ciphers::LEGAL;
use crate::replay::script::room;

pub fn write(blanks: &mut Blanks) {
    for (cipher, length) in LEGAL {
        all_equal(blanks, cipher, length, 0x00);
        all_equal(blanks, cipher, length, 0xFF);
        marked_behind(blanks, cipher, length);
    }
    for cipher in [NOEKEON, NOEKEON_EARLIER] {
        for byte in [0x01, 0x7F, 0x80] {
            all_equal(blanks, cipher, 16, byte);
        }
    }
}

fn all_equal(blanks: &mut Blanks, cipher: u8, length: u8, byte: u8) {
    let used = vec![byte; used(cipher, length)];
    let schedule = Schedule::with(cipher, length, &used);
    blanks.script.keep_schedule(&schedule);
    blocks(blanks, &schedule);
    stream(blanks);
    seal(blanks);
}

fn blocks(blanks: &mut Blanks, schedule: &Schedule) {
    let block = blanks.random.array();
    blanks.script.encipher(&block, room(16, 0x10));
    let back = schedule.encipher(block);
    blanks.script.decipher(&back, room(17, 0x20));
}

fn stream(blanks: &mut Blanks) {
    blanks.start();
    for (length, space) in [(20, 16), (12, 16)] {
        let piece = blanks.random.bytes(length);
        blanks.script.piece(&piece, room(space, 0x30));
    }
    blanks.script.finish();
}

fn seal(blanks: &mut Blanks) {
    let length = blanks.random.one_of(&[0, 15, 16, 17]);
    blanks.script.start_seal();
    blanks.script.piece_of_seal(&blanks.random.bytes(length));
    blanks.script.write_seal(room(16, 0x40));
}

/// The same byte in a place behind the used ones; there is none behind 288.
fn marked_behind(blanks: &mut Blanks, cipher: u8, length: u8) {
    let first = used(cipher, length);
    if first == ROUND_KEY_BYTES {
        return;
    }
    let byte = blanks.random.mark();
    let mut schedule = Schedule::with(cipher, length, &vec![byte; first]);
    let place = blanks.random.one_of(&[first, ROUND_KEY_BYTES - 1]);
    schedule.round_keys[place] = byte;
    blanks.script.keep_schedule(&schedule);
    blanks.block();
    blanks.start();
    blanks.script.start_seal();
}
