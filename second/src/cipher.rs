//! The key schedule record; set-up and one block, whichever cipher.
//! Follows document 01, 'What is built', 'The two records' and 'Refusal numbers', and
//! document 02, request 2, for numbers 3 and 4, and request 7, for blank keys.

use crate::bytes::{part, Block};
use crate::refusal::Answer;
use crate::{e2, hierocrypt3, noekeon};
use std::collections::BTreeSet;

pub const HIEROCRYPT3: u8 = 1;
pub const E2: u8 = 2;
pub const NOEKEON: u8 = 3;
pub const NOEKEON_EARLIER: u8 = 4;

pub const ROUND_KEY_BYTES: usize = 288;

/// Any value is a schedule; a bad one is refused by the calls.
#[derive(Clone, Debug, PartialEq, Eq)]
pub struct Schedule {
    pub cipher: u8,
    pub key_length: u8,
    pub round_keys: [u8; ROUND_KEY_BYTES],
}

pub fn is_cipher(number: u64) -> bool {
    key_lengths(number).is_some()
}

pub fn is_key_length(cipher: u64, length: usize) -> bool {
    key_lengths(cipher).map_or(false, |legal| legal.contains(&length))
}

fn key_lengths(cipher: u64) -> Option<&'static [usize]> {
    match cipher {
        1 | 2 => Some(&[16, 24, 32]),
        3 | 4 => Some(&[16]),
        _ => None,
    }
}

/// Whether the key has one byte value and no other.
pub fn is_blank(key: &[u8]) -> bool {
    key.iter().collect::<BTreeSet<_>>().len() == 1
}

/// How many round key bytes a legal cipher and key length use.
pub fn used(cipher: u8, key_length: u8) -> usize {
    match cipher {
        HIEROCRYPT3 => 32 * (hierocrypt3::rounds(key_length.into()) + 1),
        E2 => 256,
        _ => 16,
    }
}

impl Schedule {
    pub const ZERO: Schedule = Schedule {
        cipher: 0,
        key_length: 0,
        round_keys: [0; ROUND_KEY_BYTES],
    };

    /// The schedule with these used bytes and zeros behind them.
    pub fn with(cipher: u8, key_length: u8, used: &[u8]) -> Schedule {
        let mut round_keys = [0; ROUND_KEY_BYTES];
        round_keys[..used.len()].copy_from_slice(used);
        Schedule {
            cipher,
            key_length,
            round_keys,
        }
    }

    pub fn is_bad(&self) -> bool {
        let legal = is_key_length(self.cipher.into(), self.key_length.into());
        !legal || {
            let behind = &self.round_keys[used(self.cipher, self.key_length)..];
            behind.iter().any(|&byte| byte != 0)
        }
    }

    /// The block enciphered; the schedule isn't bad.
    pub fn encipher(&self, block: Block) -> Block {
        match self.cipher {
            HIEROCRYPT3 => hierocrypt3::encipher(&self.round_keys, self.rounds(), block),
            E2 => e2::encipher(&self.round_keys, block),
            _ => self.rule().encipher(part(&self.round_keys, 0), block),
        }
    }

    /// The block deciphered; the schedule isn't bad.
    pub fn decipher(&self, block: Block) -> Block {
        match self.cipher {
            HIEROCRYPT3 => hierocrypt3::decipher(&self.round_keys, self.rounds(), block),
            E2 => e2::decipher(&self.round_keys, block),
            _ => self.rule().decipher(part(&self.round_keys, 0), block),
        }
    }

    fn rounds(&self) -> usize {
        hierocrypt3::rounds(self.key_length.into())
    }

    fn rule(&self) -> noekeon::Rule {
        match self.cipher {
            NOEKEON => noekeon::DESIGNERS,
            _ => noekeon::EARLIER,
        }
    }
}

#[derive(Clone, Debug, PartialEq, Eq)]
pub struct SetUp {
    pub answer: Answer,
    pub schedule: Schedule,
}

pub fn set_up(cipher: u64, key: &[u8]) -> SetUp {
    let answer = Answer::first(&[
        (Answer::CipherNumber, !is_cipher(cipher)),
        (Answer::KeyLength, !is_key_length(cipher, key.len())),
        (Answer::BlankKey, is_blank(key)),
    ]);
    let schedule = match answer {
        Answer::Done => schedule_of(cipher as u8, key),
        _ => Schedule::ZERO,
    };
    SetUp { answer, schedule }
}

/// What the definitions make of a key of a legal length, blank or not.
pub fn schedule_of(cipher: u8, key: &[u8]) -> Schedule {
    let round_keys = match cipher {
        HIEROCRYPT3 => hierocrypt3::keys::set_up(key),
        E2 => e2::keys::set_up(key),
        _ => key.to_vec(),
    };
    Schedule::with(cipher, key.len() as u8, &round_keys)
}

/// What one block gives back: the answer, and the output as it is afterwards.
#[derive(Clone, Debug, PartialEq, Eq)]
pub struct OneBlock {
    pub answer: Answer,
    pub out: Vec<u8>,
}

pub fn encipher_block(schedule: &Schedule, block: &[u8], out: &[u8]) -> OneBlock {
    one_block(schedule, block, out, Schedule::encipher)
}

pub fn decipher_block(schedule: &Schedule, block: &[u8], out: &[u8]) -> OneBlock {
    one_block(schedule, block, out, Schedule::decipher)
}

fn one_block(
    schedule: &Schedule,
    block: &[u8],
    out: &[u8],
    work: fn(&Schedule, Block) -> Block,
) -> OneBlock {
    let answer = Answer::first(&[
        (Answer::BadSchedule, schedule.is_bad()),
        (Answer::BlockLength, block.len() != 16),
        (Answer::NoRoom, out.len() < 16),
    ]);
    let out = match answer {
        Answer::Done => written_over(out, &work(schedule, part(block, 0))),
        _ => out.to_vec(),
    };
    OneBlock { answer, out }
}

/// The output with `front` written at its front and the rest left.
pub fn written_over(out: &[u8], front: &[u8]) -> Vec<u8> {
    [front, &out[front.len()..]].concat()
}
