//! Keys that aren't blank but look so from one side: each is taken.
//! Follows document 02, request 7.

use super::{Blanks, BLOCK};
use crate::random::Random;
use crate::replay::ciphers::LEGAL;

pub fn write(blanks: &mut Blanks) {
    for (cipher, length) in LEGAL {
        every_place(blanks, cipher.into(), length.into());
    }
    for (cipher, length) in LEGAL {
        for key in kinds(&mut blanks.random, length.into()) {
            blanks.script.set_up_alone(cipher.into(), &key);
            blanks.block();
            let broken = blanks.random.one_of(&[0, BLOCK]);
            blanks.entry(cipher.into(), &key, broken);
        }
    }
}

/// All bytes equal but one; at either end of the key with every call.
fn every_place(blanks: &mut Blanks, cipher: u64, length: usize) {
    for place in 0..length {
        let mut key = blanks.any_blank(length);
        key[place] ^= difference(&mut blanks.random);
        let at_an_end = place == 0 || place + 1 == length;
        blanks.script.set_up_alone(cipher, &key);
        if at_an_end || blanks.random.below(4) == 0 {
            blanks.block();
        }
        if at_an_end || blanks.random.below(8) == 0 {
            blanks.entry(cipher, &key, 0);
        }
    }
}

/// One bit, or any.
fn difference(random: &mut Random) -> u8 {
    match random.below(2) {
        0 => 1 << random.below(8),
        _ => random.mark(),
    }
}

fn kinds(random: &mut Random, length: usize) -> Vec<Vec<u8>> {
    let b = random.byte();
    let c = b ^ difference(random);
    let word: [u8; 4] = random.array();
    let of = |byte: &dyn Fn(usize) -> u8| -> Vec<u8> { (0..length).map(byte).collect() };
    let one_c = |at: usize| of(&|i| if i == at { c } else { b });
    vec![
        of(&|i| if i < length / 2 { b } else { c }),
        of(&|i| if i % 2 == 0 { b } else { c }),
        [vec![b; 2], random.bytes(length - 2)].concat(),
        [random.bytes(length - 2), vec![b; 2]].concat(),
        one_c(0),
        one_c(length / 2),
        one_c(length - 1),
        of(&|i| b.wrapping_add(i as u8)),
        of(&|i| word[i % 4]),
    ]
}
