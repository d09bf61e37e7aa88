//! Checks on kept states: of each length, with each bit changed, with other seals.
//! Follows document 02, request 3.

use super::led_to;
use crate::bytes::{xor, Block};
use crate::cipher::{Schedule, NOEKEON, NOEKEON_EARLIER};
use crate::cmac::{cmac, masked, subkeys};
use crate::random::Random;
use crate::replay::ciphers::ALL;
use crate::replay::faults::any_schedule;
use crate::replay::script::Script;
use crate::seal::Seal;

pub fn write(script: &mut Script, random: &mut Random) {
    lengths(script, random);
    each_bit(script, random);
    for cipher in ALL.legal_numbers() {
        neighbours(script, random, cipher);
    }
    number_3_and_number_4(script, random);
}

fn kept_check(script: &mut Script, seal: &Seal, given: &[u8]) {
    script.keep_seal(seal);
    script.check_seal(given);
}

/// So many bytes of the seal, written again and again.
fn lengths(script: &mut Script, random: &mut Random) {
    for cipher in ALL.legal_numbers() {
        let schedule = any_schedule(random, cipher, 16);
        let length = random.below(50);
        let seal = led_to(&schedule, &random.bytes(length));
        let sealed = seal.sealed();
        let given = [sealed; 2].concat();
        for length in [0, 1, 15, 16, 17, 32] {
            kept_check(script, &seal, &given[..length]);
        }
        kept_check(script, &seal, &[sealed; 17].concat());
        kept_check(script, &seal, &[&sealed[..], &[0]].concat());
        kept_check(script, &seal, &[&[0], &sealed[..]].concat());
        kept_check(script, &seal, &sealed[1..]);
    }
}

/// Each bit of one seal changed, on one state; the seal itself before and behind.
fn each_bit(script: &mut Script, random: &mut Random) {
    let schedule = any_schedule(random, NOEKEON, 16);
    let seal = led_to(&schedule, &random.bytes(21));
    let sealed = seal.sealed();
    kept_check(script, &seal, &sealed);
    for bit in 0..128 {
        let changed = u128::from_be_bytes(sealed) ^ (1 << bit);
        kept_check(script, &seal, &changed.to_be_bytes());
    }
    kept_check(script, &seal, &sealed);
}

/// Seals of other messages, and what else could be taken for the seal: the other subkey
/// used, and the chain.
fn neighbours(script: &mut Script, random: &mut Random, cipher: u8) {
    let schedule = any_schedule(random, cipher, 16);
    for length in [15, 32] {
        let message = random.bytes(length);
        let seal = led_to(&schedule, &message);
        for given in others(&schedule, &message, &seal) {
            kept_check(script, &seal, &given);
        }
        kept_check(script, &seal, &seal.sealed());
    }
}

fn others(schedule: &Schedule, message: &[u8], seal: &Seal) -> [Block; 5] {
    let e = |block| schedule.encipher(block);
    let longer = [message, &[0x80]].concat();
    let mut changed = message.to_vec();
    changed[0] ^= 1;
    let [k1, k2] = subkeys(e);
    let last = xor(seal.chain, masked(e, seal.held_bytes()));
    [
        cmac(e, &message[1..]),
        cmac(e, &longer),
        cmac(e, &changed),
        e(xor(last, xor(k1, k2))),
        seal.chain,
    ]
}

/// The same bytes in the state; the seal of the one cipher is a no under the other.
fn number_3_and_number_4(script: &mut Script, random: &mut Random) {
    let message = random.bytes(37);
    let three = any_schedule(random, NOEKEON, 16);
    let four = Schedule {
        cipher: NOEKEON_EARLIER,
        ..three.clone()
    };
    let seals = [three, four].map(|schedule| led_to(&schedule, &message));
    for seal in &seals {
        for other in &seals {
            kept_check(script, seal, &other.sealed());
        }
    }
}
