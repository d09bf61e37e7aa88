//! Blank keys of illegal lengths and for unknown ciphers: 17 comes after 2 and 1.
//! Follows document 02, request 7.

use super::Blanks;
use crate::cipher::is_key_length;
use crate::replay::ciphers::ALL;

const LENGTHS: [usize; 10] = [0, 1, 15, 17, 23, 24, 25, 31, 32, 33];

pub fn write(blanks: &mut Blanks) {
    for cipher in ALL.legal_numbers().into_iter().map(u64::from) {
        for length in LENGTHS {
            if !is_key_length(cipher, length) {
                set_up_and_entry(blanks, cipher, length);
            }
        }
    }
    for &cipher in ALL.illegal {
        set_up_and_entry(blanks, cipher, 16);
        set_up_and_entry(blanks, cipher, 15);
    }
}

fn set_up_and_entry(blanks: &mut Blanks, cipher: u64, length: usize) {
    let key = blanks.any_blank(length);
    blanks.script.set_up_alone(cipher, &key);
    let broken = blanks.random.below(8) as u8;
    blanks.entry(cipher, &key, broken);
}
