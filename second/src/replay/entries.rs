//! The C entry's calls, for the end of the blocks part and for request 2.
//! Follows document 01, 'Refusal numbers'.

use super::call::Call;
use super::ciphers::Ciphers;
use super::script::{room, Script, BLOCK_LENGTHS, DIRECTIONS, KEY_LENGTHS, ROOMS};
use crate::random::Random;

pub fn write(script: &mut Script, random: &mut Random, ciphers: &Ciphers) {
    numbers(script, random, ciphers);
    broken_rules(script, random, ciphers);
    key_lengths(script, random, ciphers);
    lengths_and_rooms(script, random, ciphers);
}

struct Entry {
    cipher: u64,
    direction: u64,
    key_length: usize,
    block_length: usize,
    space: usize,
}

fn call_entry(script: &mut Script, random: &mut Random, entry: Entry) {
    script.call(Call::Entry {
        cipher: entry.cipher,
        direction: entry.direction,
        key: random.bytes(entry.key_length),
        block: random.bytes(entry.block_length),
        buffer: room(entry.space, random.byte()),
    });
}

/// Every number as cipher with every direction, all else legal.
fn numbers(script: &mut Script, random: &mut Random, ciphers: &Ciphers) {
    for &cipher in ciphers.numbers {
        for direction in DIRECTIONS {
            let entry = Entry {
                cipher,
                direction,
                key_length: 16,
                block_length: 16,
                space: 16,
            };
            call_entry(script, random, entry);
        }
    }
}

/// Every set of broken rules, for every cipher and key length.
fn broken_rules(script: &mut Script, random: &mut Random, ciphers: &Ciphers) {
    for &(cipher, key_length) in ciphers.legal {
        for broken in 0..32u8 {
            let cipher = match breaks(broken, 0) {
                true => random.one_of(ciphers.illegal),
                false => cipher.into(),
            };
            let entry = entry_breaking(random, cipher, key_length, broken);
            call_entry(script, random, entry);
        }
    }
}

fn breaks(broken: u8, rule: u8) -> bool {
    broken >> rule & 1 == 1
}

fn entry_breaking(random: &mut Random, cipher: u64, key_length: u8, broken: u8) -> Entry {
    let breaks = |rule| breaks(broken, rule);
    Entry {
        cipher,
        key_length: match breaks(1) {
            true => random.one_of(&[0, 15, 17, 33]),
            false => key_length.into(),
        },
        direction: match breaks(2) {
            true => random.one_of(&[0, 3, 257, 258]),
            false => random.one_of(&[1, 2]),
        },
        block_length: match breaks(3) {
            true => random.one_of(&[0, 15, 17, 32]),
            false => 16,
        },
        space: match breaks(4) {
            true => random.one_of(&[0, 1, 15]),
            false => random.one_of(&[16, 17, 40]),
        },
    }
}

fn key_lengths(script: &mut Script, random: &mut Random, ciphers: &Ciphers) {
    for cipher in ciphers.legal_numbers() {
        for key_length in KEY_LENGTHS {
            for direction in [1, 2] {
                let entry = Entry {
                    cipher: cipher.into(),
                    direction,
                    key_length,
                    block_length: 16,
                    space: 18,
                };
                call_entry(script, random, entry);
            }
        }
    }
}

fn lengths_and_rooms(script: &mut Script, random: &mut Random, ciphers: &Ciphers) {
    for cipher in ciphers.legal_numbers() {
        for block_length in BLOCK_LENGTHS {
            for space in ROOMS {
                let entry = Entry {
                    cipher: cipher.into(),
                    direction: random.one_of(&[1, 2]),
                    key_length: 16,
                    block_length,
                    space,
                };
                call_entry(script, random, entry);
            }
        }
    }
}
