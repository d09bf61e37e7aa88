//! Comparing beside everything that is kept: it leaves schedule, stream and seal state.
//! Follows document 02, request 6, and the page on replay.

use super::Compares;
use crate::replay::cards::{other, s};
use crate::replay::script::room;

pub fn write(compares: &mut Compares) {
    let [key, first, block]: [[u8; 16]; 3] = [(); 3].map(|()| compares.random.array());
    compares.script.set_up(3, &key);
    done_and_refused(compares);
    compares.script.start(1, &first);
    compares.script.start_seal();
    done_and_refused(compares);
    compares.script.encipher(&block, room(16, 0x10));
    compares.script.piece(&block[..9], room(0, 0x20));
    compares.script.piece_of_seal(&block[..9]);
    done_and_refused(compares);
    compares.script.piece(&block[9..], room(16, 0x30));
    compares.script.lay_down(room(40, 0x40));
    compares.script.finish();
    compares.script.write_seal(room(16, 0x50));
    done_and_refused(compares);
}

fn done_and_refused(compares: &mut Compares) {
    let (first, second) = ([s(1, 1), s(1, 2)].concat(), other(1, 2));
    compares.in_rooms(&first, &second);
    compares.in_room(&first[1..], &second, 8);
}
