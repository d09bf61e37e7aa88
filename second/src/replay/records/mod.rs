//! The records part of the script: readings laid down and taken up, good records and
//! records with every fault, and messages with many stops.
//! Follows document 02, request 5.

mod bad;
mod beside;
mod bytes;
mod causes;
mod counts;
mod kinds;
mod scenarios;
mod told;

use super::script::Script;
use crate::random::Random;
use told::Told;

pub fn write(script: &mut Script) {
    let random = &mut Random::seeded(6);
    let told = &mut Told::new(script);
    before_any_start(told, random);
    counts::write(told, random);
    bad::write(told, random);
    kinds::write(told, random);
    causes::write(told, random);
    bytes::write(told, random);
    beside::write(told, random);
    scenarios::write(told, random);
}

/// The first call is on the stream that the part before leaves, then the record of no
/// stream leaves one of zeros.
fn before_any_start(told: &mut Told, random: &mut Random) {
    told.script.lay_down(super::script::room(40, 0xC3));
    told.take_up(&[]);
    told.lay_down(40, 0xC3);
    told.lay_down(39, 0x3C);
    told.take_up(&random.bytes(40));
    told.lay_down(8192, 0x3C);
}
