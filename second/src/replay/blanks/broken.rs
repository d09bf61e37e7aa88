//! Entries with every set of broken rules, a blank key among them.
//! Follows document 02, request 7.

use super::{Blanks, BLOCK, DIRECTION, ROOM};
use crate::replay::ciphers::{ALL, LEGAL};

/// The rules of the key, beside the three others.
const CIPHER: u8 = 8;
const LENGTH: u8 = 16;
const BLANK: u8 = 32;

pub fn write(blanks: &mut Blanks) {
    for (cipher, length) in LEGAL {
        for broken in 0..64 {
            let cipher = blanks.pick(broken & CIPHER, (ALL.illegal, &[cipher.into()]));
            let length = blanks.pick(broken & LENGTH, (&[15, 17], &[length.into()]));
            let key = match broken & BLANK {
                0 => blanks.random.bytes(length),
                _ => blanks.any_blank(length),
            };
            blanks.entry(cipher, &key, broken & (DIRECTION | BLOCK | ROOM));
        }
    }
}
