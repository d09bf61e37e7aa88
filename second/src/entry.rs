//! What the one entry for C firmware answers and leaves in the output.
//! Follows document 01, 'What is built' and 'Refusal numbers', and document 02,
//! request 7.

use crate::bytes::part;
use crate::cipher::{is_blank, is_cipher, is_key_length, set_up, written_over, OneBlock};
use crate::refusal::Answer;
use crate::stream::{is_direction, ENCIPHER};

pub fn entry(cipher: u64, direction: u64, key: &[u8], block: &[u8], out: &[u8]) -> OneBlock {
    let answer = Answer::first(&[
        (Answer::CipherNumber, !is_cipher(cipher)),
        (Answer::KeyLength, !is_key_length(cipher, key.len())),
        (Answer::BlankKey, is_blank(key)),
        (Answer::Direction, !is_direction(direction)),
        (Answer::BlockLength, block.len() != 16),
        (Answer::NoRoom, out.len() < 16),
    ]);
    if answer != Answer::Done {
        let out = out.to_vec();
        return OneBlock { answer, out };
    }
    let schedule = set_up(cipher, key).schedule;
    let worked = if direction == u64::from(ENCIPHER) {
        schedule.encipher(part(block, 0))
    } else {
        schedule.decipher(part(block, 0))
    };
    OneBlock {
        answer,
        out: written_over(out, &worked),
    }
}
