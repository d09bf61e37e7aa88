//! Laying down and taking up beside everything else that is kept: they leave the schedule
//! and the seal state, and the stream taken up has its own schedule.
//! Follows document 02, request 5, and the page on replay.

use super::told::Told;
use crate::random::Random;
use crate::replay::script::room;

pub fn write(told: &mut Told, random: &mut Random) {
    for (cipher, other) in [(1, 3), (2, 4), (3, 1), (4, 2)] {
        another_set_up_behind(told, random, cipher, other);
        beside_a_seal(told, random, cipher);
    }
}

/// The stream keeps the schedule it was taken up with; the record is refused under the
/// one that was set up since, with 5 if the set-up was refused.
fn another_set_up_behind(told: &mut Told, random: &mut Random, cipher: u8, other: u8) {
    told.set_up(cipher, &random.bytes(16));
    let record = told.any_record(random, 21);
    told.take_up(&record);
    told.set_up(other, &random.bytes(16));
    told.any_piece(random, 20);
    told.script.encipher(&random.bytes(16), room(16, 0x10));
    let later = told.lay_down(40, 0x20);
    told.set_up(other, &random.bytes(15));
    told.any_piece(random, 20);
    told.lay_down(40, 0x30);
    told.take_up(&later);
    told.any_piece(random, 20);
    told.set_up(other, &random.bytes(16));
    told.take_up(&later);
    told.lay_down(40, 0x40);
}

fn beside_a_seal(told: &mut Told, random: &mut Random, cipher: u8) {
    told.set_up(cipher, &random.bytes(16));
    told.script.start_seal();
    told.script.piece_of_seal(&random.bytes(20));
    let record = told.any_record(random, 21);
    told.take_up(&record);
    told.script.piece_of_seal(&random.bytes(20));
    told.take_up(&record[1..]);
    told.lay_down(40, 0x50);
    told.script.write_seal(room(16, 0x60));
    told.script.encipher(&random.bytes(16), room(16, 0x70));
}
