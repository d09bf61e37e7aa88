//! Bad cards for each cause: the first, the second, both, with room and with none.
//! Follows document 02, requests 1 and 6.

use super::{filled, Compares, LONGEST};
use crate::bytes::Block;
use crate::card::{good, EMPTY, SLOT, SLOTS};
use crate::replay::cards::fields::slots;
use crate::replay::cards::{other, s};

pub fn write(compares: &mut Compares) {
    for slot in slots() {
        among_others(compares, slot);
    }
    lengths(compares);
    stray_bytes(compares);
    every_two(compares);
    too_long(compares);
}

/// A slot with a field at its bounds, or beyond: then it makes the card bad.
fn among_others(compares: &mut Compares, slot: Block) {
    let mut slots = vec![s(9, 9), EMPTY];
    slots.insert(compares.random.below(3), slot);
    let card = slots.concat();
    match good(&card) {
        true => compares.exactly(&card, &s(9, 9)),
        false => everywhere(compares, &card),
    }
}

/// As the first, as the second, as both; with room and with none.
fn everywhere(compares: &mut Compares, card: &[u8]) {
    let good = [s(9, 10), s(9, 9)].concat();
    for (first, second) in [(card, &good[..]), (&good, card), (card, card)] {
        compares.in_room(first, second, 24);
        compares.in_room(first, second, 0);
    }
}

/// Every length up to three slots and a byte.
fn lengths(compares: &mut Compares) {
    let filled = [s(1, 1), s(1, 2), s(2, 1), s(2, 2)].concat();
    for length in 0..50 {
        compares.exactly(&filled[..length], &s(1, 2));
        compares.exactly(&[0; SLOT], &filled[..length]);
        compares.exactly(&filled[..length], &filled[..length]);
    }
    for length in [1, 15, 17, 31] {
        everywhere(compares, &vec![0; length]);
    }
}

/// A slot with only one byte that isn't zero.
fn stray_bytes(compares: &mut Compares) {
    for place in 0..SLOT {
        let mut slot = EMPTY;
        slot[place] = compares.random.mark();
        everywhere(compares, &slot);
    }
}

fn causes() -> [Vec<u8>; 8] {
    let with = |place: usize, byte: u8| {
        let mut slot = s(1, 1);
        slot[place] = byte;
        slot.to_vec()
    };
    let stray = [&s(1, 1)[..], &[0; 10], &[1], &[0; 5]];
    [
        s(1, 1)[..15].to_vec(),
        with(1, 0),
        with(2, 33),
        with(3, 0),
        with(4, 255),
        with(15, 1),
        stray.concat(),
        [s(1, 1), other(1, 1)].concat(),
    ]
}

fn every_two(compares: &mut Compares) {
    for first in causes() {
        for second in causes() {
            compares.in_room(&first, &second, 12);
            compares.in_room(&first, &second, 0);
        }
    }
}

/// 257 slots, empty and filled.
fn too_long(compares: &mut Compares) {
    everywhere(compares, &[0; SLOT * (SLOTS + 1)]);
    let filled = filled(&mut compares.random, SLOTS + 1).concat();
    compares.in_room(&[], &filled, LONGEST);
}
