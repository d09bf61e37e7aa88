//! Good states that are kept: closed ones with bytes held, and ones that no message led
//! to.
//! Follows document 02, request 3.

use crate::random::Random;
use crate::replay::call::Call;
use crate::replay::ciphers::LEGAL;
use crate::replay::faults::any_seal;
use crate::replay::record::{seal_bytes, SEAL_CLOSED};
use crate::replay::script::{room, Script};
use crate::seal::Seal;

pub fn write(script: &mut Script, random: &mut Random) {
    closed_states(script, random);
    closed_bytes(script, random);
    chains(script, random);
    held_numbers(script, random);
    any_states(script, random);
}

/// A closed state with bytes held isn't bad.
fn closed_states(script: &mut Script, random: &mut Random) {
    for count in [0, 1, 15, 16, 17, 32, 40, Seal::LIMIT - 1, Seal::LIMIT] {
        let open = any_seal(random, &LEGAL, count);
        script.keep_seal(&Seal {
            closed: true,
            ..open.clone()
        });
        script.piece_of_seal(&[]);
        script.piece_of_seal(&random.bytes(17));
        script.write_seal(room(random.one_of(&[0, 16]), random.byte()));
        script.check_seal(&open.sealed());
        script.start_seal();
    }
}

/// A closed byte over 1 counts as 1.
fn closed_bytes(script: &mut Script, random: &mut Random) {
    for closed in [0, 1, 2, 128, 255] {
        for count in [0, 32, 37] {
            let seal = any_seal(random, &LEGAL, count);
            let mut bytes = seal_bytes(&seal);
            bytes[SEAL_CLOSED] = closed;
            script.call(Call::KeepSeal(Box::new(bytes)));
            script.check_seal(&seal.sealed());
        }
    }
}

/// A chain of zeros is as good as any behind 16 bytes; up to there it's the only one.
fn chains(script: &mut Script, random: &mut Random) {
    for count in [0, 1, 15, 16, 17, 32, 33] {
        for chain in [[0; 16], [0xFF; 16]] {
            let seal = any_seal(random, &LEGAL, count);
            script.keep_seal(&Seal { chain, ..seal });
            script.piece_of_seal(&random.bytes(1));
            script.write_seal(room(16, random.byte()));
        }
    }
}

/// Held bytes that are zero though they are used, before a piece that fills the block,
/// and others before one that goes a byte beyond it.
fn held_numbers(script: &mut Script, random: &mut Random) {
    for held in [1, 2, 8, 15, 16] {
        let seal = any_seal(random, &LEGAL, 64 + held);
        let zeros = Seal {
            held: [0; 16],
            ..seal.clone()
        };
        let fills = 16 - held as usize;
        script.keep_seal(&zeros);
        script.piece_of_seal(&random.bytes(fills));
        script.keep_seal(&seal);
        script.piece_of_seal(&random.bytes(fills + 1));
        script.write_seal(room(16, random.byte()));
    }
}

/// States and pieces at random, then the seal written or checked.
fn any_states(script: &mut Script, random: &mut Random) {
    for number in 0..24 {
        let count = random.below(200) as u64;
        let length = random.below(50);
        script.keep_seal(&any_seal(random, &LEGAL, count));
        script.piece_of_seal(&random.bytes(length));
        match number % 4 {
            0 => script.check_seal(&random.bytes(16)),
            _ => script.write_seal(room(14 + random.below(6), random.byte())),
        }
    }
}
