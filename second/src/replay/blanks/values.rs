//! Blank keys of every byte value, all of them in entries and some in set-ups.
//! Follows document 02, request 7.

use super::{Blanks, BLOCK};
use crate::replay::ciphers::LEGAL;
use crate::replay::script::room;

pub fn write(blanks: &mut Blanks) {
    for (cipher, length) in LEGAL {
        entries(blanks, cipher.into(), length.into());
    }
    for (cipher, length) in LEGAL {
        set_ups(blanks, cipher.into(), length.into());
    }
}

/// Any rules behind are broken too. Most blocks have no bytes, so that the script is short.
fn entries(blanks: &mut Blanks, cipher: u64, length: usize) {
    for byte in 0..=255 {
        let key = vec![byte; length];
        let broken = blanks.random.below(8) as u8;
        match blanks.random.below(8) {
            0 => blanks.entry(cipher, &key, broken),
            _ => blanks.entry_of_block(cipher, &key, broken | BLOCK, 0),
        }
    }
}

/// A key is taken, then a blank one refused, which leaves nothing of the first.
fn set_ups(blanks: &mut Blanks, cipher: u64, length: usize) {
    let any = blanks.random.byte();
    for byte in [0x00, 0xFF, 0x01, 0x7F, 0x80, any] {
        let key = blanks.random.bytes(length);
        blanks.script.set_up_alone(cipher, &key);
        blanks.script.set_up_alone(cipher, &vec![byte; length]);
        blanks.block();
        blanks.start();
    }
    blanks.script.start_seal();
    blanks.script.piece(&[1; 16], room(16, any));
}
