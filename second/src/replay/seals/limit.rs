//! Kept states next to the limit.
//! Follows document 02, request 3.

use crate::random::Random;
use crate::replay::ciphers::LEGAL;
use crate::replay::faults::any_seal;
use crate::replay::script::{room, Script};
use crate::seal::Seal;

const COUNTS: [u64; 8] = [
    Seal::LIMIT - 17,
    Seal::LIMIT - 16,
    Seal::LIMIT - 15,
    Seal::LIMIT - 1,
    Seal::LIMIT,
    Seal::LIMIT + 1,
    u64::MAX - 15,
    u64::MAX,
];

pub fn write(script: &mut Script, random: &mut Random) {
    for count in COUNTS {
        for length in [0, 1, 15, 16, 17] {
            script.keep_seal(&any_seal(random, &LEGAL, count));
            script.piece_of_seal(&random.bytes(length));
        }
        script.write_seal(room(16, random.byte()));
        let seal = any_seal(random, &LEGAL, count);
        script.keep_seal(&seal);
        script.check_seal(&seal.sealed());
    }
    at_the_limit(script, random);
}

/// A refused piece leaves the state for the next calls; a closed one answers 7, not 8.
fn at_the_limit(script: &mut Script, random: &mut Random) {
    let seal = any_seal(random, &LEGAL, Seal::LIMIT - 5);
    script.keep_seal(&seal);
    for length in [6, 8192, 5, 1, 0] {
        script.piece_of_seal(&random.bytes(length));
    }
    script.write_seal(room(16, 0x88));
    script.piece_of_seal(&random.bytes(1));
    script.piece_of_seal(&[]);
}
