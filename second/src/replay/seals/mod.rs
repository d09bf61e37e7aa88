//! The seals part of the script: start, pieces, writing and checking, for messages and
//! for kept states.
//! Follows document 02, request 3.

mod bad;
mod beside;
mod checks;
mod cuts;
mod ends;
mod limit;
mod messages;
mod states;

use super::script::{room, Script};
use crate::cipher::Schedule;
use crate::random::Random;
use crate::seal::{feed, start, Seal};

pub fn write(script: &mut Script) {
    let random = &mut Random::seeded(5);
    before_any_start(script, random);
    messages::write(script, random);
    cuts::write(script, random);
    ends::write(script, random);
    checks::write(script, random);
    bad::write(script, random);
    limit::write(script, random);
    states::write(script, random);
    beside::write(script, random);
}

/// The seal state is still all zero here, and so refused.
fn before_any_start(script: &mut Script, random: &mut Random) {
    script.piece_of_seal(&random.bytes(16));
    script.piece_of_seal(&[]);
    script.write_seal(room(16, 0xC3));
    script.write_seal(room(15, 0x3C));
    script.check_seal(&random.bytes(16));
    script.check_seal(&[]);
}

/// The state that a message leads to.
fn led_to(schedule: &Schedule, message: &[u8]) -> Seal {
    feed(&start(schedule).seal, message).seal
}
