//! Starts under bad schedules, and bad states of every cause before every call.
//! Follows document 02, request 3.

use crate::random::Random;
use crate::replay::ciphers::{ALL, LEGAL};
use crate::replay::faults::{any_schedule, any_seal, bad_schedules};
use crate::replay::script::{room, Script};
use crate::seal::Seal;

pub fn write(script: &mut Script, random: &mut Random) {
    refused_starts(script, random);
    for seal in bad_seals(random) {
        every_call(script, random, &seal);
    }
    orders(script, random);
}

/// Every call on the one state, which a refusal leaves as it is; the start comes last.
fn every_call(script: &mut Script, random: &mut Random, seal: &Seal) {
    let closed = random.below(4) == 0;
    script.keep_seal(&Seal {
        closed,
        ..seal.clone()
    });
    let length = random.one_of(&[0, 1, 16, 33]);
    script.piece_of_seal(&random.bytes(length));
    script.write_seal(room(random.one_of(&[0, 15, 16, 17]), random.byte()));
    match seal.schedule.is_bad() {
        true => script.check_seal(&random.bytes(16)),
        false => script.check_seal(&seal.sealed()),
    }
    script.start_seal();
}

/// The record that a refused start leaves is refused itself.
fn refused_starts(script: &mut Script, random: &mut Random) {
    for schedule in bad_schedules(random, &ALL).iter().step_by(4) {
        script.keep_schedule(schedule);
        script.start_seal();
    }
    script.piece_of_seal(&random.bytes(5));
    script.write_seal(room(16, 0x77));
    script.check_seal(&random.bytes(16));
    script.set_up(5, &random.bytes(16));
    script.start_seal();
    for (cipher, key_length) in LEGAL {
        script.keep_schedule(&any_schedule(random, cipher, key_length));
        script.start_seal();
    }
}

fn bad_seals(random: &mut Random) -> Vec<Seal> {
    let mut bad = Vec::new();
    for schedule in bad_schedules(random, &ALL).into_iter().step_by(8) {
        let count = random.one_of(&[0, 16, 37]);
        let seal = any_seal(random, &LEGAL, count);
        bad.push(Seal { schedule, ..seal });
    }
    for over in [1, 15, 16, 17, 1 << 20, 1 << 32, 1 << 63] {
        bad.push(any_seal(random, &LEGAL, Seal::LIMIT + over));
    }
    bad.push(any_seal(random, &LEGAL, u64::MAX));
    bad.extend(stale(random));
    bad.extend(chained_too_early(random));
    bad
}

/// One held byte behind the used ones isn't zero: the next place for each number held,
/// and places further behind for some.
fn stale(random: &mut Random) -> Vec<Seal> {
    let of_none = [0, 1, 8, 15].map(|place| (0, place));
    let next_place = (1..16).map(|held| (16 * (held % 3) + held, held as usize));
    let last_place = [1, 8, 17, 24, 33].map(|count| (count, 15));
    let places = of_none.into_iter().chain(next_place).chain(last_place);
    let mut bad = Vec::new();
    for (count, place) in places {
        let mut seal = any_seal(random, &LEGAL, count);
        seal.held[place] = random.mark();
        bad.push(seal);
    }
    bad
}

/// The chain isn't zero though no block can have been pushed out.
fn chained_too_early(random: &mut Random) -> Vec<Seal> {
    let mut bad = Vec::new();
    for count in [0, 1, 15, 16] {
        for place in [0, 15, random.below(16)] {
            let mut seal = any_seal(random, &LEGAL, count);
            seal.chain[place] = random.mark();
            bad.push(seal);
        }
    }
    bad
}

/// Every set of causes, for a piece, a write and a check: 6 before 7, 7 before 8 and 9.
fn orders(script: &mut Script, random: &mut Random) {
    for causes in 0..8u8 {
        let applies = |cause: u8| causes >> cause & 1 == 1;
        let mut seal = any_seal(random, &LEGAL, Seal::LIMIT - 3);
        if applies(0) {
            seal.held[15] = 1;
        }
        seal.closed = applies(1);
        let (length, space) = match applies(2) {
            true => (4, 15),
            false => (3, 16),
        };
        script.keep_seal(&seal);
        script.piece_of_seal(&random.bytes(length));
        script.keep_seal(&seal);
        script.write_seal(room(space, random.byte()));
        script.keep_seal(&seal);
        script.check_seal(&seal.sealed()[16 - space.min(16)..]);
    }
}
